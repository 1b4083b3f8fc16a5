//! Stores by hand.

#![allow(dead_code)]

use splitter::{Room, Store};

/// Objects of these words, and links of parent, position and child.
pub fn store(objects: &[&[u16]], links: &[[u32; 3]]) -> Store {
    let mut store = Store::new();
    for words in objects {
        store.add_object(&bytes(words)).unwrap();
    }
    for &[parent, position, child] in links {
        store.add_link(parent, position, child).unwrap();
    }
    store
}

/// Words as a font has them.
pub fn bytes(words: &[u16]) -> Vec<u8> {
    words.iter().flat_map(|word| word.to_be_bytes()).collect()
}

/// A format 1 table, object 0, with X advances, and its coverage of glyphs 10, 20 and so on, object 1. No slot
/// has a link.
fn format1_slots(sets: u16) -> Store {
    let mut table = bytes(&[1, 0, 4, 0, sets]);
    table.resize(10 + 2 * usize::from(sets), 0);
    let glyphs = (1..=sets).map(|set| 10 * set);
    let coverage: Vec<u16> = [1, sets].into_iter().chain(glyphs).collect();
    let mut store = Store::new();
    store.add_object(&table).unwrap();
    store.add_object(&bytes(&coverage)).unwrap();
    store.add_link(0, 2, 1).unwrap();
    store
}

/// A format 1 table, object 0, with X advances, of glyphs 10, 20 and so on and a pair set for each length.
/// Its coverage is object 1, and the sets are objects 2 and on, each of one pair: in front of glyph 70 the
/// advance is the set's number. Behind them comes, for each set, what it leads to and makes up its length.
pub fn format1(lengths: &[usize]) -> Store {
    let mut store = format1_slots(lengths.len() as u16);
    let mut sets = Vec::new();
    for set in 0..lengths.len() as u16 {
        let object = store.add_object(&bytes(&[1, 70, set + 1])).unwrap();
        store.add_link(0, 10 + 2 * u32::from(set), object).unwrap();
        sets.push(object);
    }
    for (set, length) in sets.into_iter().zip(lengths) {
        let rest = store.add_object(&vec![0; length - 6]).unwrap();
        store.add_link(set, 0, rest).unwrap();
    }
    store
}

/// The same with a pair set of so many records each: of glyphs 0, 1 and so on, each with the set's number.
pub fn format1_records(records: &[u16]) -> Store {
    let mut store = format1_slots(records.len() as u16);
    for (set, &count) in (0..).zip(records) {
        let pairs = (0..count).flat_map(|second| [second, set + 1]);
        let words: Vec<u16> = [count].into_iter().chain(pairs).collect();
        let object = store.add_object(&bytes(&words)).unwrap();
        store.add_link(0, 10 + 2 * u32::from(set), object).unwrap();
    }
    store
}

/// A mark-to-base table, object 0, of three classes: marks 10, 20, 30 and 40 of classes 2, 0, 1 and 0,
/// on bases 60 and 61. Its parts are objects 1 to 4, and all marks have the anchor that is object 5.
/// Base 60 has an anchor in each class, objects 6, 7 and 8, of these lengths; base 61 has none.
pub fn marks(lengths: [usize; 3]) -> Store {
    let objects: [&[u16]; 6] = [
        &[1, 0, 0, 3, 0, 0],
        &[1, 4, 10, 20, 30, 40],
        &[2, 1, 60, 61, 0],
        &[4, 2, 0, 0, 0, 1, 0, 0, 0],
        &[2, 0, 0, 0, 0, 0, 0],
        &[1, 100, 200],
    ];
    let parts = [[0, 2, 1], [0, 4, 2], [0, 8, 3], [0, 10, 4]];
    let of_marks = [4, 8, 12, 16].map(|slot| [3, slot, 5]);
    let mut store = store(&objects, &[&parts[..], &of_marks].concat());
    for (slot, length) in [2, 4, 6].into_iter().zip(lengths) {
        let anchor = store.add_object(&vec![0; length]).unwrap();
        store.add_link(4, slot, anchor).unwrap();
    }
    store
}

/// It is cut at 1 and 2, and needs exactly this room. Classes 1 and 2 have one mark each: table, coverage,
/// mark array and base array. The kept class has two. 4K + 3 objects; 4K links and those of both arrays.
pub fn cut_marks() -> (Store, Room) {
    let room = Room {
        data: 2 * (12 + 6 + 6 + 6) + (8 + 10 + 6),
        objects: 11,
        links: 8 + 4 + 3,
    };
    (marks([40_000; 3]), room)
}

/// Three sets of 30,002 bytes: as in W7 it is cut at 2, and needs exactly this room.
pub fn w7() -> (Store, Room) {
    let room = Room {
        data: 26,
        objects: 3,
        links: 1,
    };
    (format1_records(&[7_500; 3]), room)
}

/// W12: 170 rows of 200 columns, X advances, and glyph 100 + c in class c. It is cut at 162.
pub fn w12() -> Store {
    let mut table = bytes(&[2, 0, 4, 0, 0, 0, 170, 200]);
    table.resize(16 + 2 * 170 * 200, 0);
    let classes: Vec<u16> = [1, 100, 170].into_iter().chain(0..170).collect();
    let mut class_def2 = bytes(&[1, 100, 202]);
    class_def2.resize(410, 0);
    let mut store = Store::new();
    let objects = [
        table,
        bytes(&[2, 1, 100, 269, 0]),
        bytes(&classes),
        class_def2,
    ];
    for object in &objects {
        store.add_object(object).unwrap();
    }
    for (position, part) in [(2, 1), (8, 2), (10, 3)] {
        store.add_link(0, position, part).unwrap();
    }
    store
}

/// The list of [`listed`].
pub const LIST: u32 = 5;
/// The lookup of [`listed`].
pub const LOOKUP: u32 = 6;

/// Three sets, cut at 2; a list, object 5, of an empty slot and a lookup, object 6, which has a mark filtering
/// set and lists the table, nothing, object 7 of another format, and the table again. Object 8 leads to the
/// lookup. It needs exactly this room: the split's, and 2 bytes and a link for each of two listings more than
/// the lookup has.
pub fn listed() -> (Store, Room) {
    let mut store = format1_records(&[7_500; 3]);
    for words in [
        &[2, 0, 0][..],
        &[2, 0x0010, 4, 0, 0, 0, 0, 0x0ABC],
        &[3],
        &[0, 0],
    ] {
        store.add_object(&bytes(words)).unwrap();
    }
    for [parent, position, child] in [
        [LIST, 4, LOOKUP],
        [LOOKUP, 6, 0],
        [LOOKUP, 10, 7],
        [LOOKUP, 12, 0],
        [8, 2, LOOKUP],
    ] {
        store.add_link(parent, position, child).unwrap();
    }
    let room = Room {
        data: 26 + 16 + 2 * 2,
        objects: 3 + 1,
        links: 1 + 3 + 2,
    };
    (store, room)
}

/// Pair sets with X advances that are not sorted, or not as long as they say.
pub const UNSORTED: [&[u16]; 5] = [
    &[2, 70, 1, 70, 2],
    &[2, 71, 1, 70, 2],
    &[1, 70, 1, 0],
    &[1, 70],
    &[],
];

/// A format 1 table of glyph 10, object 0, with this pair set.
pub fn one_set(set: &[u16]) -> Store {
    let mut store = format1_slots(1);
    let set = store.add_object(&bytes(set)).unwrap();
    store.add_link(0, 10, set).unwrap();
    store
}

/// W10: pair sets of 100, 30,000 and 20,000 bytes, objects 2 to 4, of which the first two also lead to one
/// object of 40,000 bytes. By edition 1 it is cut at 1 alone, by edition 2 at 1 and 2.
pub fn w10() -> Store {
    let mut store = format1(&[100, 30_000, 20_000]);
    let shared = store.add_object(&[0; 40_000]).unwrap();
    for set in [2, 3] {
        store.add_link(set, 2, shared).unwrap();
    }
    store
}

/// Two glyphs, of which the first has a pair set that with what it leads to has this length, and the second an
/// empty slot.
pub fn empty_slot(length: usize) -> Store {
    let mut store = format1_slots(2);
    let set = store.add_object(&bytes(&[1, 70, 1])).unwrap();
    let rest = store.add_object(&vec![0; length - 6]).unwrap();
    store.add_link(0, 10, set).unwrap();
    store.add_link(set, 0, rest).unwrap();
    store
}
