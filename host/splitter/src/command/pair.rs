//! `splitter pair`: what a table says of two glyphs.

use super::{
    arguments::{Name, Pair},
    failure::Failure,
    files,
    json::Json,
    look::Look,
    outcome::Outcome,
    readings::{listed, read_first},
    screen::Screen,
    text::two_columns,
    told,
};
use splitter::{read_pair, store_file::Table, Kind, PairValues, Store, Values};

/// Shows what the tables of a store file say of two glyphs: one of them, or the first that has the pair.
pub fn run(request: &Pair, screen: &mut Screen) -> Result<Outcome, Failure> {
    let file = files::read_store(&request.file)?;
    let store = file.store();
    let [first, second] = request.glyphs;
    let tables = listed(&file, Kind::Pairs, request.table);
    let tables = tables.map_err(|sentence| files::about(&request.file, sentence))?;
    let read = |table| read_pair(store, table, first, second);
    let found = read_first(store, Kind::Pairs, &tables, read);
    let found = found.map_err(|failure| failure.at(&request.file))?;
    let values = vec![
        ("first", first.into()),
        ("second", second.into()),
        ("found", found.is_some().into()),
        ("table", found.map(|(table, _)| table).into()),
        ("values", found.map(|(_, pair)| told(&pair)).into()),
    ];
    screen.json(&told::answer(
        Name::Pair,
        Outcome::Done,
        &request.file,
        values,
    ))?;
    match found {
        Some((table, pair)) => show(table, request.glyphs, &pair, screen)?,
        None => screen.line(&no_pair(store, &tables, request.glyphs))?,
    }
    Ok(Outcome::Done)
}

fn show(
    table: u32,
    [first, second]: [u16; 2],
    pair: &PairValues,
    screen: &mut Screen,
) -> Result<(), Failure> {
    screen.heading(&format!(
        "Table {table}, glyph {first} before glyph {second}"
    ))?;
    let heads = [first, second].map(|glyph| format!("glyph {glyph}"));
    screen.line(&two_columns("", &heads))?;
    let values = fields(&pair.first).into_iter().zip(fields(&pair.second));
    for ((name, first), (_, second)) in values {
        screen.line(&two_columns(name, &[first, second]))?;
    }
    Ok(())
}

/// Why there is no pair.
fn no_pair(store: &Store, tables: &[u32], [first, second]: [u16; 2]) -> String {
    let pair = format!("pair for glyph {first} before glyph {second}");
    let &[table] = tables else {
        return format!(
            "None of its {} tables for pairs has a {pair}.",
            tables.len()
        );
    };
    match Look::at(store.view(), Table::pairs(table)) {
        Some(look) if !look.is_split() => format!(
            "Table {table} has format {}: only formats 1 and 2 have pairs.",
            look.format
        ),
        _ => format!("Table {table} has no {pair}."),
    }
}

/// The eight values of a glyph, by name.
fn fields(values: &Values) -> [(&'static str, String); 8] {
    let device = |object: Option<u32>| match object {
        Some(object) => format!("object {object}"),
        None => "none".into(),
    };
    [
        ("X placement", values.x_placement.to_string()),
        ("Y placement", values.y_placement.to_string()),
        ("X advance", values.x_advance.to_string()),
        ("Y advance", values.y_advance.to_string()),
        ("X placement device", device(values.x_placement_device)),
        ("Y placement device", device(values.y_placement_device)),
        ("X advance device", device(values.x_advance_device)),
        ("Y advance device", device(values.y_advance_device)),
    ]
}

fn told(pair: &PairValues) -> Json {
    Json::object([
        ("first", told_values(&pair.first)),
        ("second", told_values(&pair.second)),
    ])
}

fn told_values(values: &Values) -> Json {
    Json::object([
        ("x_placement", values.x_placement.into()),
        ("y_placement", values.y_placement.into()),
        ("x_advance", values.x_advance.into()),
        ("y_advance", values.y_advance.into()),
        ("x_placement_device", values.x_placement_device.into()),
        ("y_placement_device", values.y_placement_device.into()),
        ("x_advance_device", values.x_advance_device.into()),
        ("y_advance_device", values.y_advance_device.into()),
    ])
}
