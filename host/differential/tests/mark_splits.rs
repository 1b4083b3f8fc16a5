//! Splits of MarkBasePos tables by hand, through the archive, the model and the oracle.

use differential::{
    by_hand::{marks, push_anchor, BASE_ARRAY, BASE_COVERAGE, MARK_ARRAY},
    check::{again, frame, marks_agree, marks_as_the_oracle, Split},
    compare::Objects,
    edit, lend,
    lend::Need,
    model::{coverage, numbers::bytes, soundness::MAXIMA},
    Archive,
    Edition::First,
    MarkSubject, Marks, Random, Tally,
};
use oracle::{link, Store};

const TABLE: u32 = 0;

/// The split, which is the model's and the oracle's.
fn split(store: &Store) -> Split {
    let call = lend::marks_exactly(store, TABLE, First, &mut Random::new(0));
    assert_eq!(marks_agree(&Archive, &call), Ok(()));
    let split = Split::by(&Marks(&Archive), &call);
    assert_eq!(split.answer, 0);
    assert_eq!(marks_as_the_oracle(&split, &mut Tally::default()), Ok(()));
    assert_eq!(frame(&split), Ok(()));
    assert_eq!(again(&Marks(&Archive), &split), Ok(()));
    split
}

fn cuts(store: &Store) -> Vec<u16> {
    split(store).places
}

/// Three classes, each of which is 65,536 bytes with the one before, and marks in no order of classes.
///
/// The anchors are objects 5 to 10: of the marks, of glyphs 10 to 40, and of class 1 and 2 of the
/// first base.
fn three_classes() -> Store {
    let mut store = marks(3, &[2, 0, 1, 0], 2);
    for (array, position, length) in [
        (MARK_ARRAY, 4, 20_000),
        (MARK_ARRAY, 8, 20_000),
        (MARK_ARRAY, 12, 40_000),
        (MARK_ARRAY, 16, 10_000),
        (BASE_ARRAY, 4, 8),
        (BASE_ARRAY, 6, 30_000),
    ] {
        push_anchor(&mut store, array, position, length);
    }
    edit::set_word(&mut store, TABLE, 2, 0x1234);
    edit::set_word(&mut store, TABLE, 10, 0x5678);
    store
}

/// Classes 1 and 2 are cut off: 4K + 3 objects is 11, and 4K + 6 links is 14.
#[test]
fn all_that_is_written() {
    let store = three_classes();
    let split = split(&store);
    assert_eq!(split.places, [1, 2]);
    assert_eq!(split.new_tables(), [11, 15]);
    let after = &split.after.store;
    assert_eq!(after.counts[1..], [22, 24]);

    let new_words: [&[u16]; 11] = [
        &[1, 0, 0, 1, 0, 0],
        &[1, 1, 30],
        &[1, 0, 0],
        &[2, 0, 0],
        &[1, 0, 0, 1, 0, 0],
        &[1, 1, 10],
        &[1, 0, 0],
        &[2, 0, 0],
        &[1, 2, 20, 40],
        &[2, 0, 0, 0, 0],
        &[2, 0, 0],
    ];
    let new_data = &after.data_in_use()[store.data.len()..];
    assert_eq!(new_data, bytes(new_words.concat()));
    assert_eq!(after.bytes(TABLE), bytes([1, 0x1234, 0, 1, 0, 0x5678]));

    let old = store.links_in_use();
    let mut rows = old.to_vec();
    for (row, child) in [(0, 19), (2, 20), (3, 21)] {
        rows[row][3] = child;
    }
    let row = link::offset;
    rows.extend([
        row(11, 2, 12),
        row(11, 4, 2),
        row(11, 8, 13),
        row(11, 10, 14),
    ]);
    rows.extend([row(13, 4, 7), row(14, 2, 9)]);
    rows.extend([
        row(15, 2, 16),
        row(15, 4, 2),
        row(15, 8, 17),
        row(15, 10, 18),
    ]);
    rows.extend([row(17, 4, 5), row(18, 2, 10)]);
    rows.extend([row(20, 4, 6), row(20, 8, 8)]);
    assert_eq!(after.links_in_use(), rows);
}

/// 4K + 3 objects, and 4K links plus those of both arrays.
#[test]
fn what_is_needed() {
    let need = Need::of_marks(&three_classes(), TABLE, First);
    assert_eq!(need.room[1..], [4 * 2 + 3, 4 * 2 + 4 + 2]);
    assert_eq!([need.walk, need.glyphs, need.items], [22, 4, 3]);
    assert_eq!(need.list, 2);
}

/// A base costs 2 bytes, a mark 4 and 2 of partial coverage, over 16, 4 and the base coverage.
#[test]
fn a_class_at_the_limit() {
    let one_base = |length| {
        let mut store = marks(1, &[], 1);
        push_anchor(&mut store, BASE_ARRAY, 2, length);
        store
    };
    let longest = 65_535 - 16 - 6 - 4 - 2;
    assert_eq!(cuts(&one_base(longest)), []);
    assert_eq!(cuts(&one_base(longest + 1)), [0]);
    let one_mark = |length| {
        let mut store = marks(1, &[0], 0);
        push_anchor(&mut store, MARK_ARRAY, 4, length);
        store
    };
    let longest = 65_535 - 16 - 4 - 4 - 6;
    assert_eq!(cuts(&one_mark(longest)), []);
    assert_eq!(cuts(&one_mark(longest + 1)), [0]);
}

/// Eight glyphs in a row are a coverage of 10 bytes, but partial coverage is 20.
#[test]
fn partial_coverage_is_not_bounded_by_the_coverage() {
    let run = |length| {
        let mut store = marks(1, &[0; 8], 0);
        let glyphs: Vec<u16> = (100..108).collect();
        edit::replace(&mut store, 1, &coverage::write(&glyphs));
        push_anchor(&mut store, MARK_ARRAY, 4, length);
        store
    };
    assert_eq!(run(0).bytes(1).len(), 10);
    let longest = 65_535 - 16 - 4 - 8 * 4 - 20;
    assert_eq!(cuts(&run(longest)), []);
    assert_eq!(cuts(&run(longest + 1)), [0]);
}

/// After a class that is too large by itself the next one is cut off, even if nothing is of it.
#[test]
fn an_empty_class_is_tested_as_any_other() {
    let mut store = marks(3, &[1], 0);
    push_anchor(&mut store, MARK_ARRAY, 4, 65_530);
    assert_eq!(cuts(&store), [1, 2]);
}

/// What class 1 shares with class 0 is in no sum of the new table, so class 2 still fits by the rule.
#[test]
fn the_class_at_a_cut_is_not_measured_again() {
    let mut store = marks(3, &[0, 1, 2], 0);
    let shared = push_anchor(&mut store, MARK_ARRAY, 4, 40_000);
    let anchor = push_anchor(&mut store, MARK_ARRAY, 8, 30_000);
    store.push_link(anchor as usize, 0, shared as usize);
    push_anchor(&mut store, MARK_ARRAY, 12, 20_000);
    assert_eq!(cuts(&store), [1]);
}

/// A mark's anchor and a base's, of one class or of two, are counted once until there is a cut.
#[test]
fn an_anchor_counts_once() {
    let mut store = marks(2, &[0, 1], 1);
    let anchor = push_anchor(&mut store, MARK_ARRAY, 4, 40_000) as usize;
    store.push_link(MARK_ARRAY as usize, 8, anchor);
    store.push_link(BASE_ARRAY as usize, 2, anchor);
    store.push_link(BASE_ARRAY as usize, 4, anchor);
    assert_eq!(cuts(&store), []);
}

/// The base coverage counts by its length, whatever it covers. The kept table has no class.
#[test]
fn a_long_base_coverage_cuts_every_class() {
    let mut store = marks(2, &[], 0);
    let glyphs: Vec<u16> = (0..32_756).map(|i| 2 * i).collect();
    let base_coverage = coverage::write(&glyphs);
    assert_eq!(base_coverage.len(), 65_516);
    edit::replace(&mut store, BASE_COVERAGE, &base_coverage);
    let split = split(&store);
    assert_eq!(split.places, [0, 1]);
    assert_eq!(split.after.store.bytes(TABLE), bytes([1, 0, 0, 0, 0, 0]));
    assert_eq!(
        edit::child_at(&split.after.store, TABLE, 4),
        Some(BASE_COVERAGE)
    );
    edit::replace(&mut store, BASE_COVERAGE, &coverage::write(&glyphs[1..]));
    assert_eq!(cuts(&store), []);
}

/// No class is no item.
#[test]
fn a_table_without_classes_is_not_cut() {
    let mut store = marks(0, &[], 3);
    let glyphs: Vec<u16> = (0..40_000).step_by(2).chain(40_000..60_000).collect();
    let list = [1, glyphs.len() as u16].into_iter().chain(glyphs);
    edit::replace(&mut store, BASE_COVERAGE, &bytes(list));
    assert_eq!(cuts(&store), []);
}

/// Glyph 30 is covered and has no mark: scratch is asked for it, and it goes to no table.
#[test]
fn a_glyph_past_the_marks_goes_to_no_table() {
    let mut store = marks(2, &[0, 1], 0);
    edit::replace(&mut store, 1, &coverage::write(&[10, 20, 30]));
    push_anchor(&mut store, MARK_ARRAY, 8, 65_530);
    assert_eq!(Need::of_marks(&store, TABLE, First).glyphs, 3);
    let split = split(&store);
    assert_eq!(split.places, [1]);
    let covered = split.tables().into_iter().flat_map(|table| {
        let after = &split.after.store;
        let mark_coverage = edit::child_at(after, table, 2).unwrap();
        coverage::read(after.bytes(mark_coverage)).unwrap()
    });
    assert!(covered.eq([10, 20]));
}

/// One object is both arrays: its links are copied for each, and it keeps them.
#[test]
fn one_object_may_be_both_arrays() {
    let mut store = marks(2, &[0, 1], 2);
    edit::link(&mut store, TABLE, 10, MARK_ARRAY);
    let first = push_anchor(&mut store, MARK_ARRAY, 4, 6);
    let second = push_anchor(&mut store, MARK_ARRAY, 8, 65_500);
    assert_eq!(
        Need::of_marks(&store, TABLE, First).room[1..],
        [7, 4 + 2 + 2]
    );
    let split = split(&store);
    assert_eq!(split.places, [1]);
    let after = &split.after.store;
    let links = |table, position| after.links(edit::child_at(after, table, position).unwrap());
    assert_eq!(after.links(MARK_ARRAY), [(4, first), (8, second)]);
    assert_eq!(links(TABLE, 8), [(4, first)]);
    assert_eq!(links(TABLE, 10), []);
    let [new_table] = split.new_tables() else {
        panic!("one new table")
    };
    assert_eq!(links(*new_table, 8), [(4, second)]);
    assert_eq!(links(*new_table, 10), [(2, first), (4, second)]);
}

/// An array that another table leads to as well stays as it is.
#[test]
fn a_shared_array_keeps_its_links() {
    let mut store = three_classes();
    let other = store.push_object(&bytes([1, 0, 0, 3, 0, 0])) as u32;
    for (position, part) in [(2, 1), (4, 2), (8, 3), (10, 4)] {
        edit::link(&mut store, other, position, part);
    }
    let split = split(&store);
    assert_eq!(split.places, [1, 2]);
    for object in [MARK_ARRAY, BASE_ARRAY, other] {
        assert_eq!(split.after.store.links(object), store.links(object));
        assert_eq!(split.after.store.bytes(object), store.bytes(object));
    }
}

/// A table whose classes are all cut off, and the answer to a split of it that is lent the maxima.
fn all_cuts(classes: u16) -> (Store, u32) {
    let mut store = marks(classes, &[], 0);
    edit::replace(
        &mut store,
        BASE_COVERAGE,
        &bytes([1, 32_760].into_iter().chain(0..32_760)),
    );
    let mut call = lend::marks_exactly(&store, TABLE, First, &mut Random::new(0));
    call.store.data.resize(MAXIMA[0] + 100, 7);
    call.store.objects.resize(2 * (MAXIMA[1] + 100), 7);
    call.store
        .links
        .resize(link::NUMBERS * (MAXIMA[2] + 100), 7);
    assert_eq!(marks_agree(&Archive, &call), Ok(()));
    let answer = Archive.split_markbasepos(&mut call);
    (store, answer)
}

/// Each cut adds four objects, and the kept table three: 5 + 4 · 16,382 + 3 is 65,536.
#[test]
fn there_are_16_382_cuts_and_no_more() {
    let (store, answer) = all_cuts(16_382);
    assert_eq!(answer, 0);
    assert_eq!(cuts(&store).len(), 16_382);
    assert_eq!(all_cuts(16_383).1, 8);
}

/// Two cuts have room for 131,066 links of arrays, each of which stands twice then: 4 + 8 + 2 · 131,066
/// is 262,144.
#[test]
fn half_of_the_links_can_be_split() {
    let answer = |links: u32| {
        let mut store = marks(2, &[], 0);
        let slots = [65_535].into_iter().chain([0; 2 * 65_535]);
        edit::replace(&mut store, BASE_ARRAY, &bytes(slots));
        let row = |slot| link::offset(BASE_ARRAY, 2 + 2 * slot, BASE_COVERAGE);
        let rows = (0..links).flat_map(row);
        store.links.extend(rows);
        store.counts[2] += links;
        let mut call = lend::marks_exactly(&store, TABLE, First, &mut Random::new(0));
        assert_eq!(call.list.len(), 2);
        call.store
            .links
            .resize(link::NUMBERS * (MAXIMA[2] + 100), 7);
        assert_eq!(marks_agree(&Archive, &call), Ok(()));
        Archive.split_markbasepos(&mut call)
    };
    assert_eq!(answer(131_066), 0);
    assert_eq!(answer(131_067), 8);
}
