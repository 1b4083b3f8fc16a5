//! What the command found, as JSON. docs/COMMAND.md describes it.

use super::{arguments::Name, json::Json, look::Look, outcome::Outcome, text::order_only};
use splitter::{
    explain::{Fault, LinkRow, Place},
    store_file::Table,
    Explanation, Kind, Link, LinkKind, Refusal, StoreRef,
};
use std::path::Path;

/// Values by name.
pub type Values = Vec<(&'static str, Json)>;

/// What every command tells first, and then these values.
pub fn answer(name: Name, outcome: Outcome, file: &Path, values: Values) -> Json {
    let first = vec![
        ("command", name.word().into()),
        ("outcome", outcome.word().into()),
        ("exit", Json::Number(outcome.number().into())),
        ("file", path(file)),
    ];
    Json::object(first.into_iter().chain(values))
}

/// A file as it was named, as far as that is text.
pub fn path(path: &Path) -> Json {
    path.to_string_lossy().into_owned().into()
}

/// What a store has in use.
pub fn store(view: StoreRef) -> Json {
    let [data, objects, links] = view.counts();
    let order_only = Some(order_only(view)).filter(|&count| count > 0);
    Json::object([
        ("objects", objects.into()),
        ("links", links.into()),
        ("order_only", order_only.into()),
        ("data", data.into()),
    ])
}

/// The name of a kind of table.
pub const fn kind(kind: Kind) -> &'static str {
    match kind {
        Kind::Pairs => "pairs",
        Kind::Marks => "marks",
    }
}

/// The tables that a file lists.
pub fn tables(tables: &[Table]) -> Json {
    let told = tables.iter().map(|table| {
        Json::object([
            ("table", table.number.into()),
            ("kind", kind(table.kind).into()),
        ])
    });
    Json::list(told)
}

/// A table, and how much there is of it.
pub fn table(table: Table, look: Option<&Look>) -> Values {
    let look = |of: fn(&Look) -> usize| Json::from(look.map(of));
    vec![
        ("table", table.number.into()),
        ("kind", kind(table.kind).into()),
        ("format", look(|look| look.format)),
        ("bytes", look(|look| look.all_bytes)),
        ("items", look(|look| look.items)),
        ("glyphs", look(|look| look.glyphs)),
    ]
}

/// A refusal, and what is at fault.
pub fn refused(refusal: Refusal, explanation: &Explanation) -> Json {
    let same = explanation.refusal() == Some(refusal);
    let explained = Some(explanation).filter(|_| same);
    Json::object([
        ("answer", refusal.number().into()),
        ("name", format!("{refusal:?}").into()),
        ("why", explained.map(|it| it.to_string()).into()),
        ("advice", refusal.to_string().into()),
        (
            "fault",
            explained.and_then(|it| it.fault()).map(fault).into(),
        ),
    ])
}

fn fault(fault: &Fault) -> Json {
    match fault {
        Fault::Number {
            place: at,
            found,
            wanted,
            ..
        } => {
            let (name, values) = place(at);
            let first = [("kind", "number".into()), ("place", name.into())];
            let last = [
                ("found", Json::Number(*found as i64)),
                ("wanted", wanted.to_string().into()),
            ];
            Json::object(first.into_iter().chain(values).chain(last))
        }
        Fault::NoLink {
            parent,
            position,
            part,
        } => Json::object([
            ("kind", "no link".into()),
            ("object", (*parent).into()),
            ("position", (*position).into()),
            ("part", part.name().into()),
        ]),
        Fault::Order { rows } => Json::object([
            ("kind", "order".into()),
            ("rows", Json::list(rows.map(|row| row.row))),
        ]),
        Fault::NoSlot { row, part } => {
            let first = [("kind", "no slot".into()), ("part", part.name().into())];
            Json::object(first.into_iter().chain(link_row(row)))
        }
        Fault::WayBack { objects } => Json::object([
            ("kind", "way back".into()),
            ("objects", Json::list(objects.iter().copied())),
        ]),
        _ => Json::Null,
    }
}

fn place(place: &Place) -> (&'static str, Values) {
    match place {
        Place::Edition => ("edition", vec![]),
        Place::Table => ("table", vec![]),
        Place::Root(entry) => ("root", vec![("entry", (*entry).into())]),
        Place::Count(buffer) => ("count", vec![("buffer", (*buffer).into())]),
        Place::Head(row) => ("head", vec![("row", (*row).into())]),
        Place::Tail(row) => ("tail", vec![("row", (*row).into())]),
        Place::Link { row, column } => {
            let mut values = link_row(row);
            values.push(("column", (*column).into()));
            ("link", values)
        }
        Place::Length { object, part } => (
            "length",
            vec![("object", (*object).into()), ("part", part.name().into())],
        ),
        Place::Bytes {
            object,
            part,
            at,
            name,
            entry,
        } => (
            "bytes",
            vec![
                ("object", (*object).into()),
                ("part", part.name().into()),
                ("at", (*at).into()),
                ("number", (*name).into()),
                ("entry", (*entry).into()),
            ],
        ),
        Place::Glyphs { object, part } => (
            "glyphs",
            vec![("object", (*object).into()), ("part", part.name().into())],
        ),
        Place::Scratch(name) => ("scratch", vec![("buffer", (*name).into())]),
        Place::Room(buffer) => ("room", vec![("buffer", (*buffer).into())]),
        Place::List => ("list", vec![]),
        _ => ("other", vec![]),
    }
}

fn link_row(LinkRow { row, link }: &LinkRow) -> Values {
    vec![
        ("row", (*row).into()),
        ("parent", link.parent.into()),
        ("link_kind", link_kind(link.kind).into()),
        ("position", link.position.into()),
        ("child", link.child.into()),
    ]
}

/// A link, as the object at one of its ends has it.
pub fn link(link: &Link, (end, other): (&'static str, u32)) -> Json {
    let position = match link.kind {
        LinkKind::OrderOnly => None,
        _ => Some(link.position),
    };
    Json::object([
        ("kind", link_kind(link.kind).into()),
        ("position", position.into()),
        (end, other.into()),
    ])
}

/// The name of a kind of link.
fn link_kind(kind: LinkKind) -> String {
    match kind {
        LinkKind::Offset => "offset".into(),
        LinkKind::OrderOnly => "order-only".into(),
        LinkKind::Unknown(number) => format!("unknown {number}"),
    }
}
