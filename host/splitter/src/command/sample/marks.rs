//! Mark to base: vowel signs on letters.

use super::words::{bytes, coverage, words_then_bytes};
use splitter::{Link, Refusal, Store};

/// Of which the last has no marks.
const CLASSES: u16 = 14;

/// The first of the marks, and how many there are.
const MARKS: (u16, u16) = (900, 72);

/// The first of the bases, and how many there are.
const BASES: (u16, u16) = (400, 170);

/// The classes of the marks, in no order of classes.
fn class(mark: u16) -> u16 {
    mark * 5 % (CLASSES - 1)
}

/// Whether a base has an anchor in a class. About a third of the slots are empty.
fn has_anchor(base: u16, class: u16) -> bool {
    class < CLASSES - 1 && (base * 7 + class * 3) % 25 >= 9
}

/// The store and its table.
pub fn store() -> Result<(Store, u32), Refusal> {
    let mut store = Store::new();
    let table = store.add_object(&bytes(&[1, 0, 0, CLASSES, 0, 0]))?;
    let [marks, bases] = [MARKS, BASES].map(|(first, count)| first..first + count);
    let mark_coverage = store.add_object(&coverage(&marks.collect::<Vec<_>>()))?;
    let base_coverage = store.add_object(&coverage(&bases.collect::<Vec<_>>()))?;
    let mark_array = store.add_object(&mark_array())?;
    let base_array = store.add_object(&base_array())?;
    let parts = [mark_coverage, base_coverage, mark_array, base_array];
    let links = [2, 4, 8, 10].into_iter().zip(parts);
    let mut links: Vec<Link> = links
        .map(|(at, part)| Link::offset(table, at, part))
        .collect();
    link_marks(&mut store, mark_array, &mut links)?;
    link_bases(&mut store, base_array, &mut links)?;
    store.add_links(links)?;
    Ok((store, table))
}

fn mark_array() -> Vec<u8> {
    let (_, count) = MARKS;
    let records = (0..count).flat_map(|mark| [class(mark), 0]);
    bytes(&[count].into_iter().chain(records).collect::<Vec<_>>())
}

fn base_array() -> Vec<u8> {
    let (_, count) = BASES;
    let mut array = bytes(&[count]);
    array.resize(2 + 2 * usize::from(count * CLASSES), 0);
    array
}

/// Two marks that follow each other have one anchor, and every 24th mark has none.
fn link_marks(store: &mut Store, array: u32, links: &mut Vec<Link>) -> Result<(), Refusal> {
    let (_, count) = MARKS;
    let mut anchor = 0;
    for mark in 0..count {
        if mark % 2 == 0 {
            anchor = store.add_object(&bytes(&[1, 250 + mark, 600 - 3 * mark]))?;
        }
        if mark % 24 != 7 {
            links.push(Link::offset(array, 4 + 4 * u32::from(mark), anchor));
        }
    }
    Ok(())
}

/// A base has one anchor for some classes that follow each other. Each has a device of its own for
/// both directions.
fn link_bases(store: &mut Store, array: u32, links: &mut Vec<Link>) -> Result<(), Refusal> {
    let (_, count) = BASES;
    for base in 0..count {
        let mut last = None;
        for class in (0..CLASSES).filter(|&class| has_anchor(base, class)) {
            let shared = last.filter(|_| (base + class) % 6 == 0);
            let anchor = match shared {
                Some(anchor) => anchor,
                None => add_anchor(store, base, class, links)?,
            };
            let slot = u32::from(base * CLASSES + class);
            links.push(Link::offset(array, 2 + 2 * slot, anchor));
            last = Some(anchor);
        }
    }
    Ok(())
}

/// An anchor of format 3 with its two devices.
fn add_anchor(
    store: &mut Store,
    base: u16,
    class: u16,
    links: &mut Vec<Link>,
) -> Result<u32, Refusal> {
    let (x, y) = (200 + base * 3 % 400, 300 + class * 40);
    let anchor = store.add_object(&bytes(&[3, x, y, 0, 0]))?;
    for (position, first) in [(6, base), (8, class)] {
        let device = store.add_object(&device(first))?;
        links.push(Link::offset(anchor, position, device));
    }
    Ok(anchor)
}

/// A device that moves an anchor by some pixels at sizes from 9 to 60 pixels.
fn device(first: u16) -> Vec<u8> {
    let deltas: Vec<u8> = (9..=60).map(|size| ((size + first) % 5) as u8).collect();
    words_then_bytes(&[9, 60, 3], &deltas)
}
