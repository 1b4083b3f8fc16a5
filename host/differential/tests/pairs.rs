//! Pair readings by hand, through the archive and the model.

use differential::{check::pair_agrees, model::numbers::bytes, Archive, Pair, Subject};
use oracle::Store;

const NOTHING: Pair = Pair {
    values: [0; 16],
    found: 0,
};

fn read(store: &Store, first: u16, second: u16) -> Pair {
    let mut pair = Pair {
        values: [9; 16],
        found: 9,
    };
    let glyphs = [first, second];
    assert_eq!(pair_agrees(&Archive, store, 0, glyphs), Ok(()));
    assert_eq!(Archive.read_pair(store, 0, glyphs, &mut pair), 0);
    pair
}

fn found(first: [i32; 8], second: [i32; 8]) -> Pair {
    let mut values = [0; 16];
    values[..8].copy_from_slice(&first);
    values[8..].copy_from_slice(&second);
    Pair { values, found: 1 }
}

/// Objects of these words, and links of parent, position and child.
fn store(objects: &[&[u16]], links: &[[usize; 3]]) -> Store {
    let mut store = Store::default();
    for words in objects {
        store.push_object(&bytes(words.iter().copied()));
    }
    for &[parent, position, child] in links {
        store.push_link(parent, position as u32, child);
    }
    store
}

/// X placement, X advance and the device of Y placement; then Y advance. High bits are ignored.
const FORMATS: [u16; 2] = [0xFF25, 0x0108];

/// Glyphs 5, 7, 8 and 9, of which 9 has no slot and 8 an empty one. Object 3 is a device.
fn sets() -> Store {
    let [format1, format2] = FORMATS;
    let set = [
        3, 69, 2, 2, 2, 2, 70, 1, 0xFFFF, 99, 0x8000, 71, 3, 4, 99, 0x7FFF,
    ];
    store(
        &[
            &[1, 0, format1, format2, 3, 0, 0, 0],
            &[1, 4, 5, 7, 8, 9],
            &set,
            &[0],
            &[1, 71, 0, 0, 0, 0],
        ],
        &[[0, 2, 1], [0, 10, 2], [0, 12, 4], [2, 18, 3]],
    )
}

#[test]
fn the_record_with_the_second_glyph() {
    let first = [1, 0, -1, 0, 0, 4, 0, 0];
    let second = [0, 0, 0, -32_768, 0, 0, 0, 0];
    assert_eq!(read(&sets(), 5, 70), found(first, second));
    let first = [3, 0, 4, 0, 0, 0, 0, 0];
    let second = [0, 0, 0, 32_767, 0, 0, 0, 0];
    assert_eq!(read(&sets(), 5, 71), found(first, second));
}

#[test]
fn no_pair_in_sets() {
    for (first, second) in [(4, 70), (6, 70), (5, 72), (7, 70), (8, 70), (9, 70)] {
        assert_eq!(read(&sets(), first, second), NOTHING);
    }
}

/// A set of no records has no pairs. A link between two slots is at neither.
#[test]
fn no_pair_in_an_empty_set_or_beside_a_slot() {
    let mut empty = sets();
    let object = empty.push_object(&[0, 0]);
    empty.push_link(0, 14, object);
    assert_eq!(read(&empty, 8, 0), NOTHING);
    let mut beside = store(
        &[&[1, 0, 0, 0, 2, 0, 0], &[1, 2, 5, 6], &[1, 70]],
        &[[0, 2, 1]],
    );
    beside.push_link(0, 11, 2);
    assert_eq!(read(&beside, 5, 70), NOTHING);
    beside.push_link(0, 10, 2);
    assert_eq!(read(&beside, 5, 70), found([0; 8], [0; 8]));
    assert_eq!(read(&beside, 6, 70), NOTHING);
}

/// The table as a pair set: one record, whose second glyph is the coverage's offset, and whose four fields
/// are the rest.
#[test]
fn a_slot_may_lead_to_the_table() {
    let table = store(
        &[&[1, 70, 0x000F, 0, 1, 0], &[1, 1, 5]],
        &[[0, 2, 1], [0, 10, 0]],
    );
    let values = [15, 0, 1, 0, 0, 0, 0, 0];
    assert_eq!(read(&table, 5, 70), found(values, [0; 8]));
}

/// What stands at no slot is no pair set, and needs not be sorted.
#[test]
fn unsorted_sets_are_refused_wherever_they_are_linked() {
    let answer = |store: &Store| {
        let glyphs = [5, 70];
        assert_eq!(pair_agrees(&Archive, store, 0, glyphs), Ok(()));
        Archive.read_pair(store, 0, glyphs, &mut Pair::default())
    };
    let unsorted = |words: &[u16]| {
        let mut store = sets();
        let object = store.push_object(&bytes(words.iter().copied()));
        store.push_link(0, 14, object);
        store
    };
    assert_eq!(answer(&unsorted(&[0])), 0);
    assert_eq!(answer(&unsorted(&[2, 8, 0, 0, 0, 0, 9, 0, 0, 0, 0])), 0);
    assert_eq!(answer(&unsorted(&[2, 9, 0, 0, 0, 0, 9, 0, 0, 0, 0])), 11);
    assert_eq!(answer(&unsorted(&[2, 9, 0, 0, 0, 0, 8, 0, 0, 0, 0])), 11);
    assert_eq!(answer(&unsorted(&[0, 0])), 11);
    assert_eq!(answer(&unsorted(&[1, 9, 0, 0, 0])), 11);
    assert_eq!(answer(&unsorted(&[])), 11);
    let mut beside = sets();
    beside.push_link(0, 13, 0);
    assert_eq!(answer(&beside), 0);
    // Last of all: too few covered glyphs come before it.
    let both = |coverage: &[u16]| {
        let objects: [&[u16]; 3] = [&[1, 0, 0, 0, 2, 0, 0], coverage, &[0, 0]];
        store(&objects, &[[0, 2, 1], [0, 10, 2]])
    };
    assert_eq!(answer(&both(&[1, 1, 5])), 5);
    assert_eq!(answer(&both(&[1, 2, 5, 6])), 11);
}

/// Two rows of three columns. Glyphs 5, 6 and 7 have classes 0, 1 and 2, and 70 has class 2.
fn rows() -> Store {
    let records = [10, 0, 11, 0, 12, 0, 20, 0, 21, 0, 22, 0];
    let table = [&[2, 0, 0x04, 0x80, 0, 0, 2, 3], &records[..]].concat();
    store(
        &[
            &table,
            &[2, 1, 5, 7, 0],
            &[1, 6, 2, 1, 2],
            &[2, 1, 70, 70, 2],
            &[0],
        ],
        &[[0, 2, 1], [0, 8, 2], [0, 10, 3], [0, 16 + 22, 4]],
    )
}

#[test]
fn the_record_of_both_classes() {
    let advance = |advance| [0, 0, advance, 0, 0, 0, 0, 0];
    assert_eq!(read(&rows(), 5, 1), found(advance(10), [0; 8]));
    assert_eq!(read(&rows(), 5, 70), found(advance(12), [0; 8]));
    assert_eq!(read(&rows(), 6, 1), found(advance(20), [0; 8]));
    let device = [0, 0, 0, 0, 0, 0, 0, 5];
    assert_eq!(read(&rows(), 6, 70), found(advance(22), device));
}

/// A glyph that is not covered, a class without a row, a class without a column.
#[test]
fn no_pair_in_rows() {
    assert_eq!(read(&rows(), 4, 70), NOTHING);
    assert_eq!(read(&rows(), 7, 70), NOTHING);
    let mut past = rows();
    let last = past.data.len() - 3;
    past.data[last] = 3;
    assert_eq!(read(&past, 6, 70), NOTHING);
}

#[test]
fn another_format_has_no_pairs() {
    assert_eq!(read(&store(&[&[3]], &[]), 5, 70), NOTHING);
}
