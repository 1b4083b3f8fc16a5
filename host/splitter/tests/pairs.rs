//! Pairs that are there, pairs that are not, and readings that are refused.

mod common;

use common::{bytes, one_set, store, UNSORTED};
use splitter::{read_pair, PairValues, Refusal, Store, StoreMut, StoreRef, Values};

/// X placement, X advance and the device of Y placement; then Y advance. High bits are ignored.
const FORMATS: [u16; 2] = [0xFF25, 0x0108];

/// Glyphs 5, 7 and 8, of which 8 has an empty slot. Object 3 is a device.
fn sets() -> Store {
    let [format1, format2] = FORMATS;
    let set = [
        3, 69, 2, 2, 2, 2, 70, 1, 0xFFFF, 99, 0x8000, 71, 3, 4, 99, 0x7FFF,
    ];
    let table = [1, 0, format1, format2, 3, 0, 0, 0];
    let empty = [0];
    store(
        &[&table, &[1, 3, 5, 7, 8], &set, &[0], &empty],
        &[[0, 2, 1], [0, 10, 2], [0, 12, 4], [2, 18, 3]],
    )
}

/// Two rows of three columns. Glyphs 5, 6 and 7 have classes 0, 1 and 2, and 70 has class 2.
fn rows() -> Store {
    let records = [10, 0, 11, 0, 12, 0, 20, 0, 21, 0, 22, 0];
    let table = [&[2, 0, 0x04, 0x80, 0, 0, 2, 3], &records[..]].concat();
    let class_defs: [&[u16]; 2] = [&[1, 6, 2, 1, 2], &[2, 1, 70, 70, 2]];
    store(
        &[&table, &[2, 1, 5, 7, 0], class_defs[0], class_defs[1], &[0]],
        &[[0, 2, 1], [0, 8, 2], [0, 10, 3], [0, 16 + 22, 4]],
    )
}

#[test]
fn the_record_with_the_second_glyph() {
    let first = Values {
        x_placement: 1,
        x_advance: -1,
        y_placement_device: Some(3),
        ..Values::default()
    };
    let second = Values {
        y_advance: i16::MIN,
        ..Values::default()
    };
    let pair = PairValues { first, second };
    assert_eq!(read_pair(&sets(), 0, 5, 70), Ok(Some(pair)));
}

#[test]
fn the_record_of_both_classes() {
    let first = Values {
        x_advance: 22,
        ..Values::default()
    };
    let second = Values {
        y_advance_device: Some(4),
        ..Values::default()
    };
    let pair = PairValues { first, second };
    assert_eq!(read_pair(&rows(), 0, 6, 70), Ok(Some(pair)));
}

/// A glyph that is not covered, one that no record has, a set of no records, an empty slot.
#[test]
fn no_pair_in_sets() {
    for (first, second) in [(4, 70), (5, 72), (7, 70), (8, 70)] {
        assert_eq!(read_pair(&sets(), 0, first, second), Ok(None));
    }
}

/// A glyph that is not covered, and a class without a row.
#[test]
fn no_pair_in_rows() {
    for first in [4, 7] {
        assert_eq!(read_pair(&rows(), 0, first, 70), Ok(None));
    }
}

#[test]
fn another_format_has_no_pairs() {
    assert_eq!(read_pair(&store(&[&[3]], &[]), 0, 5, 70), Ok(None));
}

#[test]
fn refusals() {
    let table = |words: &[u16]| read_pair(&store(&[words], &[]), 0, 5, 70);
    assert_eq!(read_pair(&sets(), 5, 5, 70), Err(Refusal::NoTable));
    assert_eq!(table(&[]), Err(Refusal::BadTable));
    assert_eq!(table(&[1, 0, 0, 0]), Err(Refusal::BadTable));
    assert_eq!(table(&[1, 0, 0, 0, 1]), Err(Refusal::BadTable));
    assert_eq!(table(&[1, 0, 0, 0, 0]), Err(Refusal::BadParts));
    let few = store(&[&[1, 0, 0, 0, 2, 0, 0], &[1, 1, 5]], &[[0, 2, 1]]);
    assert_eq!(read_pair(&few, 0, 5, 70), Err(Refusal::FewGlyphs));
    // Of any glyph, covered or not.
    for set in UNSORTED {
        for first in [10, 11] {
            let pair = read_pair(&one_set(set), 0, first, 70);
            assert_eq!(pair, Err(Refusal::UnsortedSets));
        }
    }
}

/// Buffers of the host's own, read as lent for reading and as lent for a split.
#[test]
fn lent_buffers() {
    let (mut data, mut objects, mut links, mut counts) = sets().into_parts();
    let owned = read_pair(&sets(), 0, 5, 71);
    let lent = StoreRef::new(&data, &objects, &links, &counts);
    assert_eq!(read_pair(lent, 0, 5, 71), owned);
    let lent = StoreMut::new(&mut data, &mut objects, &mut links, &mut counts);
    assert_eq!(read_pair(&lent, 0, 5, 71), owned);
    counts[2] += 1;
    let lent = StoreRef::new(&data, &objects, &links, &counts);
    assert_eq!(read_pair(lent, 0, 5, 71), Err(Refusal::Unsound));
}

/// What is past the counts is not read.
#[test]
fn junk_past_the_counts() {
    let (mut data, mut objects, mut links, counts) = sets().into_parts();
    data.extend(bytes(&[0xA5A5; 9]));
    objects.extend([u32::MAX; 3]);
    links.extend([u32::MAX; 7]);
    let lent = StoreRef::new(&data, &objects, &links, &counts);
    assert_eq!(read_pair(lent, 0, 5, 70), read_pair(&sets(), 0, 5, 70));
}
