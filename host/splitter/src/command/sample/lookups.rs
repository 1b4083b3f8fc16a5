//! A lookup of two subtables: pairs of letters, and classes of letters for all others.

use super::{
    sets,
    words::{bytes, class_def, coverage},
};
use splitter::{Link, Refusal, Store};

/// Marks are filtered by a set.
const FLAG: u16 = 0x0010;

/// The first of the covered glyphs, and how many there are: more than have pairs of their own.
const FIRSTS: (u16, u16) = (36, 200);

/// The first of the glyphs that have a class behind a letter, and how many there are.
const SECONDS: (u16, u16) = (30, 190);

const ROWS: u16 = 5;
const COLUMNS: u16 = 4;

/// The store, its table of pairs, and a list of two lookups. The second one is of another type, and lists
/// nothing.
pub fn store() -> Result<(Store, u32, u32), Refusal> {
    let (mut store, table) = sets::store()?;
    let mut links = Vec::new();
    let rows = add_rows(&mut store, &mut links)?;
    let lookup = store.add_object(&bytes(&[2, FLAG, 2, 0, 0, 1]))?;
    let other = store.add_object(&bytes(&[1, 0, 0]))?;
    let list = store.add_object(&bytes(&[2, 0, 0]))?;
    links.extend([
        Link::offset(lookup, 6, table),
        Link::offset(lookup, 8, rows),
    ]);
    links.extend([Link::offset(list, 2, lookup), Link::offset(list, 4, other)]);
    store.add_links(links)?;
    Ok((store, table, list))
}

/// A small table of rows with X advances.
fn add_rows(store: &mut Store, links: &mut Vec<Link>) -> Result<u32, Refusal> {
    let mut words = vec![2, 0, 0x0004, 0, 0, 0, ROWS, COLUMNS];
    words.extend((0..ROWS * COLUMNS).map(|record| 0u16.wrapping_sub(record % 7)));
    let table = store.add_object(&bytes(&words))?;
    let classes = |count: u16, classes: u16| -> Vec<u16> {
        (0..count).map(|glyph| glyph / 8 % classes).collect()
    };
    let ((first, firsts), (second, seconds)) = (FIRSTS, SECONDS);
    let glyphs: Vec<u16> = (first..first + firsts).collect();
    let parts = [
        (2, coverage(&glyphs)),
        (8, class_def(first, &classes(firsts, ROWS))),
        (10, class_def(second, &classes(seconds, COLUMNS))),
    ];
    for (position, part) in parts {
        let part = store.add_object(&part)?;
        links.push(Link::offset(table, position, part));
    }
    Ok(table)
}
