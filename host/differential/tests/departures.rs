//! Where the text does something else than its own comments, its writers or OpenType say, each by
//! its smallest input.
//!
//! Document 01 describes what the text does: the text, the model of document 01 and the archive
//! split each of these stores alike. The sentence of document 01 stands before each.

use differential::{
    by_hand::{format1, format1_slots, format2, lengthen},
    check::{all_agree, as_the_oracle, Split},
    compare::Objects,
    lend,
    model::{class_def, coverage, numbers::bytes},
    Archive,
    Edition::First,
    Model, Pair, Random, Subject, Tally,
};
use oracle::Store;
use std::collections::BTreeSet;

const TABLE: u32 = 0;

/// What a table, with all that it reaches, may be long.
const LIMIT: usize = 65_535;

/// The split that the model makes, the archive too, and the text.
fn split(store: &Store, table: u32) -> Split {
    let call = lend::exactly(store, table, First, &mut Random::new(0));
    assert_eq!(all_agree(&Archive, &call), Ok(()));
    let split = Split::by(&Model, &call);
    assert_eq!(as_the_oracle(&split, &mut Tally::default()), Ok(()));
    split
}

fn cuts(store: &Store) -> Vec<u16> {
    split(store, TABLE).places
}

/// The bytes of a table and of all that can be reached from it.
fn whole_length(store: &Store, table: u32) -> usize {
    let mut reached = BTreeSet::from([table]);
    let mut waiting = vec![table];
    while let Some(object) = waiting.pop() {
        let links = store.links(object).into_iter();
        waiting.extend(
            links
                .map(|(_, child)| child)
                .filter(|&child| reached.insert(child)),
        );
    }
    let lengths = reached.iter().map(|&object| store.bytes(object).len());
    lengths.sum()
}

/// "An empty slot adds nothing." The text's comment says that "Each PairSet adds an offset in the
/// main table (2 bytes) and a glyph in the coverage table (2 bytes)". An empty slot takes both.
#[test]
fn an_empty_slot_costs_neither_its_offset_nor_its_glyph() {
    let behind_an_empty_slot = |set_length| {
        let mut store = format1_slots(&[10, 20], 2);
        let set = store.push_object(&bytes([0]));
        store.push_link(0, 12, set);
        lengthen(&mut store, set, set_length);
        store
    };
    let alone = |set_length| format1(&[20], &[set_length]);
    assert_eq!(cuts(&behind_an_empty_slot(65_517)), []);
    assert_eq!(cuts(&alone(65_517)), []);
    assert_eq!(cuts(&behind_an_empty_slot(65_518)), [1]);
    assert_eq!(cuts(&alone(65_518)), [0]);

    let too_long = behind_an_empty_slot(65_514);
    assert_eq!(whole_length(&too_long, TABLE), LIMIT + 1);
}

/// "In both, S(i) at a cut stays as it was measured before the cut." The text's comment says "Reset
/// for the next subtable". What the second set shares with the first is in no sum of the new table,
/// which a third set takes over the limit.
#[test]
fn the_item_at_a_cut_is_not_measured_again() {
    let mut store = format1(&[10, 20, 30], &[6, 6, 6]);
    let shared = store.push_object(&[0; 65_502]);
    store.push_link(2, 2, shared);
    store.push_link(3, 2, shared);
    let split = split(&store, TABLE);
    assert_eq!(split.places, [1]);
    let new_table = split.new_tables()[0];
    assert_eq!(whole_length(&split.after.store, new_table), LIMIT + 1);
}

/// "p0 may be 0." The kept table is then empty, and the new one as long as the old one was: where it
/// is split, it is cut at 0 too.
#[test]
fn a_cut_at_0_leaves_an_empty_table() {
    let store = format1(&[10], &[65_518]);
    let split_once = split(&store, TABLE);
    assert_eq!(split_once.places, [0]);
    let after = &split_once.after.store;
    assert_eq!(after.bytes(TABLE), bytes([1, 0, 4, 0, 0]));
    let kept_coverage = after.counts[1] - 1;
    assert_eq!(after.links(TABLE), [(2, kept_coverage)]);
    assert_eq!(after.bytes(kept_coverage), bytes([1, 0]));

    let new_table = split_once.new_tables()[0];
    assert_eq!(whole_length(after, new_table), whole_length(&store, TABLE));
    assert_eq!(split(after, new_table).places, [0]);
}

/// "First and last include class 0". A class definition that is written does not name class 0: this
/// one names glyph 12 alone, in 8 bytes, and is estimated at 10.
#[test]
fn class_0_counts_for_first_and_last_but_is_not_written() {
    let classes = [(10, 0), (11, 0), (12, 1)];
    let mut class_def2 = bytes([1, 0, 10]);
    class_def2.resize(26, 0);
    let two_rows = |columns| format2([4, 0], [2, columns], &classes, &class_def2);
    assert_eq!(cuts(&two_rows(16_374)), []);
    let store = two_rows(16_375);
    assert_eq!(cuts(&store), [1]);

    let parts = coverage::write(&[10, 11, 12]).len() + class_def::write(&classes).len();
    assert_eq!(store.bytes(TABLE).len() + parts, LIMIT - 1);
}

/// "a plain stand-in graph of the team's own, in which moving an absent link moves nothing": a new
/// table's empty slot stays empty.
#[test]
fn an_absent_link_moves_nothing() {
    let mut store = format1_slots(&[10, 20], 2);
    let set = store.push_object(&bytes([0]));
    store.push_link(0, 10, set);
    lengthen(&mut store, set, 65_518);
    let split = split(&store, TABLE);
    assert_eq!(split.places, [0]);
    let new_table = split.new_tables()[0];
    let after = &split.after.store;
    assert_eq!(after.bytes(new_table), bytes([1, 0, 4, 0, 2, 0, 0]));
    let links = [(2, new_table + 1), (10, set as u32)];
    assert_eq!(after.links(new_table), links);
}

/// "The crate doesn't look": sets that are not sorted by second glyph, or not as long as they say, are split
/// as any other. The port refuses them by 11, whether or not there is a cut.
#[test]
fn unsorted_sets_are_split_by_the_text_and_refused_by_the_port() {
    let unsorted = [
        bytes([2, 20, 5, 10, 7]),
        bytes([2, 20, 5, 20, 7]),
        [bytes([2, 10, 5, 20, 7]), vec![0]].concat(),
        [bytes([2, 10, 5, 20]), vec![0]].concat(),
        vec![0],
        vec![],
    ];
    for set_bytes in unsorted {
        for (length, places) in [(65_518, &[1][..]), (100, &[])] {
            let mut store = format1_slots(&[10, 20], 2);
            let sets = [&set_bytes, &bytes([0])].map(|set| store.push_object(set));
            for (slot, set) in [10, 12].into_iter().zip(sets) {
                store.push_link(0, slot, set);
            }
            lengthen(&mut store, sets[1], length);
            let theirs = oracle::split(&store, TABLE as usize).unwrap();
            assert_eq!(theirs.cuts, places);

            let call = lend::exactly(&store, TABLE, First, &mut Random::new(0));
            assert_eq!(all_agree(&Archive, &call), Ok(()));
            let ours = Split::by(&Archive, &call);
            assert_eq!((ours.answer, ours.places.len()), (11, 0));
            assert_eq!(ours.after.store, call.store);
            // Glyph 20 has a sorted set, and is refused too.
            for glyphs in [[10, 10], [20, 10], [30, 10]] {
                let answer = Archive.read_pair(&store, TABLE, glyphs, &mut Pair::default());
                assert_eq!(answer, 11);
            }
        }
    }
}
