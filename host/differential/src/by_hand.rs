//! Stores made by hand: object 0 is the table, and its coverages, class definitions or arrays come next.

use crate::model::{
    class_def, coverage,
    lookups::{FILTERS, LIST_HEADER, LOOKUP_HEADER},
    numbers::bytes,
    values::ValueFormat,
};
use oracle::Store;

/// A format 1 table of so many empty slots.
pub fn format1_slots(glyphs: &[u16], slots: usize) -> Store {
    let mut store = Store::default();
    let mut table = bytes([1, 0, 4, 0, slots as u16]);
    table.resize(10 + 2 * slots, 0);
    store.push_object(&table);
    let coverage = store.push_object(&coverage::write(glyphs));
    store.push_link(0, 2, coverage);
    store
}

/// The same with a pair set for each length, from object 2 on: one record, and then an object, behind all
/// sets, that makes up the length.
pub fn format1(glyphs: &[u16], lengths: &[usize]) -> Store {
    let mut store = format1_slots(glyphs, lengths.len());
    for i in 0..lengths.len() {
        let set = store.push_object(&bytes([1, SECOND_GLYPH, 1 + i as u16]));
        store.push_link(0, 10 + 2 * i as u32, set);
    }
    for (i, &length) in lengths.iter().enumerate() {
        lengthen(&mut store, 2 + i, length);
    }
    store
}

/// The second glyph of the pairs of [`format1`].
pub const SECOND_GLYPH: u16 = 5;

/// Leads a pair set to a new object that makes up this length, where the set is shorter.
pub fn lengthen(store: &mut Store, set: usize, length: usize) {
    let [head, tail] = store.objects_in_use()[set];
    let rest = length.checked_sub((tail - head) as usize);
    if let Some(rest @ 1..) = rest {
        let rest = store.push_object(&vec![0; rest]);
        store.push_link(set, 0, rest);
    }
}

/// A format 1 table with a pair set of so many records each, from object 2 on: of second glyphs 0, 1 and so
/// on, whose value is the set's object.
pub fn format1_records(glyphs: &[u16], records: &[u16]) -> Store {
    let mut store = format1_slots(glyphs, records.len());
    for (i, &count) in records.iter().enumerate() {
        let value = store.counts[1] as u16;
        let pairs = (0..count).flat_map(|second| [second, value]);
        let set = store.push_object(&bytes([count].into_iter().chain(pairs)));
        store.push_link(0, 10 + 2 * i as u32, set);
    }
    store
}

/// A format 2 table of zeros, of so many rows and columns.
pub fn format2(
    formats: [u16; 2],
    shape: [u16; 2],
    classes: &[(u16, u16)],
    class_def2: &[u8],
) -> Store {
    let [rows, columns] = shape;
    let fields: usize = formats.iter().map(|&f| ValueFormat(f).field_count()).sum();
    let mut table = bytes([2, 0, formats[0], formats[1], 0, 0, rows, columns]);
    table.resize(16 + 2 * fields * rows as usize * columns as usize, 0);
    let glyphs: Vec<u16> = classes.iter().map(|entry| entry.0).collect();
    let mut store = Store::default();
    store.push_object(&table);
    store.push_object(&coverage::write(&glyphs));
    store.push_object(&class_def::write(classes));
    store.push_object(class_def2);
    for (position, part) in [(2, 1), (8, 2), (10, 3)] {
        store.push_link(0, position, part);
    }
    store
}

/// The base coverage of [`marks`].
pub const BASE_COVERAGE: u32 = 2;
/// The mark array of [`marks`].
pub const MARK_ARRAY: u32 = 3;
/// The base array of [`marks`].
pub const BASE_ARRAY: u32 = 4;

/// A MarkBasePos table of so many classes, without anchors: mark glyphs 10, 20 and so on of these
/// classes, and base glyphs 5, 15 and so on.
pub fn marks(classes: u16, mark_classes: &[u16], bases: u16) -> Store {
    let mark_count = mark_classes.len() as u16;
    let glyphs = |first: u16, count: u16| -> Vec<u16> {
        (0..count).map(|place| first + 10 * place).collect()
    };
    let records = mark_classes.iter().flat_map(|&class| [class, 0]);
    let slots = vec![0; usize::from(bases) * usize::from(classes)];
    let mut store = Store::default();
    store.push_object(&bytes([1, 0, 0, classes, 0, 0]));
    store.push_object(&coverage::write(&glyphs(10, mark_count)));
    store.push_object(&coverage::write(&glyphs(5, bases)));
    store.push_object(&bytes([mark_count].into_iter().chain(records)));
    store.push_object(&bytes([bases].into_iter().chain(slots)));
    for (position, part) in [(2, 1), (4, 2), (8, 3), (10, 4)] {
        store.push_link(0, position, part);
    }
    store
}

/// Links a position of an object to a new one of this length.
pub fn push_anchor(store: &mut Store, parent: u32, position: u32, length: usize) -> u32 {
    let anchor = store.push_object(&vec![0; length]);
    store.push_link(parent as usize, position, anchor);
    anchor as u32
}

/// What stands behind the offsets of [`push_lookup`]'s lookups with a filter.
pub const FILTER_SET: u16 = 0x0ABC;

/// Adds a lookup of a type and a flag whose slots lead to these, and have offsets that say nothing.
pub fn push_lookup(store: &mut Store, head: [u16; 2], slots: &[Option<u32>]) -> u32 {
    let [lookup_type, flag] = head;
    let mut lookup = bytes([lookup_type, flag, slots.len() as u16]);
    lookup.resize(LOOKUP_HEADER + 2 * slots.len(), 0x77);
    if flag & FILTERS != 0 {
        lookup.extend(FILTER_SET.to_be_bytes());
    }
    let lookup = store.push_object(&lookup);
    push_slots(store, lookup, LOOKUP_HEADER, slots);
    lookup as u32
}

/// Adds a lookup list whose slots lead to these.
pub fn push_list(store: &mut Store, slots: &[Option<u32>]) -> u32 {
    let mut list = bytes([slots.len() as u16]);
    list.resize(LIST_HEADER + 2 * slots.len(), 0x66);
    let list = store.push_object(&list);
    push_slots(store, list, LIST_HEADER, slots);
    list as u32
}

fn push_slots(store: &mut Store, parent: usize, first: usize, slots: &[Option<u32>]) {
    for (slot, child) in slots.iter().enumerate() {
        if let Some(child) = *child {
            store.push_link(parent, (first + 2 * slot) as u32, child as usize);
        }
    }
}
