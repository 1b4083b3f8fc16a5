//! `splitter mark`: how a table attaches a mark to a base.

use super::{
    arguments::{Mark, Name},
    failure::Failure,
    files,
    json::Json,
    look::Look,
    outcome::Outcome,
    readings::{listed, read_first},
    screen::Screen,
    text::two_columns,
    told,
};
use splitter::{read_mark, store_file::Table, Attachment, Kind, Store};

/// Shows by which anchors the tables of a store file attach a mark to a base: one of them, or the first
/// that does.
pub fn run(request: &Mark, screen: &mut Screen) -> Result<Outcome, Failure> {
    let file = files::read_store(&request.file)?;
    let store = file.store();
    let Mark { mark, base, .. } = *request;
    let tables = listed(&file, Kind::Marks, request.table);
    let tables = tables.map_err(|sentence| files::about(&request.file, sentence))?;
    let read = |table| read_mark(store, table, mark, base);
    let found = read_first(store, Kind::Marks, &tables, read);
    let found = found.map_err(|failure| failure.at(&request.file))?;
    let anchor = |of: fn(Attachment) -> u32| {
        let anchor = found.map(|(_, attachment)| of(attachment));
        Json::from(anchor.map(|anchor| told(store, anchor)))
    };
    let values = vec![
        ("mark", mark.into()),
        ("base", base.into()),
        ("found", found.is_some().into()),
        ("table", found.map(|(table, _)| table).into()),
        ("mark_anchor", anchor(|attachment| attachment.mark_anchor)),
        ("base_anchor", anchor(|attachment| attachment.base_anchor)),
    ];
    screen.json(&told::answer(
        Name::Mark,
        Outcome::Done,
        &request.file,
        values,
    ))?;
    match found {
        Some((table, attachment)) => show(store, table, request, attachment, screen)?,
        None => screen.line(&no_attachment(store, &tables, request))?,
    }
    Ok(Outcome::Done)
}

fn show(
    store: &Store,
    table: u32,
    Mark { mark, base, .. }: &Mark,
    attachment: Attachment,
    screen: &mut Screen,
) -> Result<(), Failure> {
    screen.heading(&format!("Table {table}, mark {mark} on base {base}"))?;
    let heads = [format!("mark {mark}"), format!("base {base}")];
    screen.line(&two_columns("", &heads))?;
    let anchors = [attachment.mark_anchor, attachment.base_anchor];
    let [of_mark, of_base] = anchors.map(|anchor| fields(store, anchor));
    for ((name, of_mark), (_, of_base)) in of_mark.into_iter().zip(of_base) {
        screen.line(&two_columns(name, &[of_mark, of_base]))?;
    }
    Ok(())
}

/// Why there is no attachment.
fn no_attachment(store: &Store, tables: &[u32], Mark { mark, base, .. }: &Mark) -> String {
    let &[table] = tables else {
        let count = tables.len();
        return format!(
            "None of its {count} mark-to-base tables attaches mark {mark} to base {base}."
        );
    };
    match Look::at(store.view(), Table::marks(table)) {
        Some(look) if !look.is_split() => format!(
            "Table {table} has format {}: only format 1 has attachments.",
            look.format
        ),
        _ => format!("Table {table} does not attach mark {mark} to base {base}."),
    }
}

/// The format, X and Y of an anchor, as far as there are such.
fn numbers(store: &Store, anchor: u32) -> [Option<i16>; 3] {
    let bytes = store.view().object(anchor).unwrap_or_default();
    [0, 2, 4].map(|place| {
        let word = bytes.get(place..)?.first_chunk().copied();
        word.map(i16::from_be_bytes)
    })
}

/// An anchor, and what stands in it, by name.
fn fields(store: &Store, anchor: u32) -> [(&'static str, String); 4] {
    let numbers = numbers(store, anchor);
    let [format, x, y] = numbers.map(|it| it.map_or("-".into(), |number| number.to_string()));
    [
        ("anchor", format!("object {anchor}")),
        ("format", format),
        ("X", x),
        ("Y", y),
    ]
}

fn told(store: &Store, anchor: u32) -> Json {
    let [format, x, y] = numbers(store, anchor);
    Json::object([
        ("object", anchor.into()),
        ("format", format.into()),
        ("x", x.into()),
        ("y", y.into()),
    ])
}
