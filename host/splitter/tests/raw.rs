//! The exported functions as they are: they answer anything.

mod common;

use common::{cut_marks, listed, w7, LIST};
use splitter::{raw, Kind, Room, Store};

/// Editions, and numbers of none.
const EDITIONS: [u32; 2] = [1, 2];
const OTHERS: [u32; 3] = [0, 3, u32::MAX];

/// An empty slice is a store of nothing, wherever its pointer leads.
#[test]
fn nothing_at_all() {
    for counts in [[0; 3], [1, 0, 0], [0, 1, 0], [0, 0, 1], [u32::MAX; 3]] {
        let expected = if counts == [0; 3] { 2 } else { 1 };
        let (mut values, mut found) = ([7; 16], 7);
        let (v, f) = (&mut values, &mut found);
        let answer = raw::read_pair(&[], &[], &[], &counts, u32::MAX, 0, u16::MAX, v, f);
        assert_eq!(answer, expected);
        assert_eq!((values, found), ([0; 16], 0));
        let (mut anchors, mut found) = ([7; 2], 7);
        let (a, f) = (&mut anchors, &mut found);
        let answer = raw::read_mark(&[], &[], &[], &counts, u32::MAX, 0, u16::MAX, a, f);
        assert_eq!((answer, anchors, found), (expected, [0; 2], 0));
        for edition in EDITIONS {
            assert_eq!(answers_to_nothing(counts, edition), [expected; 5]);
        }
        for edition in OTHERS {
            assert_eq!(answers_to_nothing(counts, edition), [12; 5]);
        }
    }
}

/// What all splits and cut plans answer that are lent nothing but counts.
fn answers_to_nothing(counts: [u32; 3], edition: u32) -> [u32; 5] {
    let splits = [raw::split_pairpos, raw::split_markbasepos].map(|split| {
        let (mut after, mut count) = (counts, 7);
        let answer = split(
            &mut [],
            &mut [],
            &mut [],
            &mut after,
            u32::MAX,
            edition,
            &mut [],
            &mut [],
            &mut [],
            &mut [],
            &mut [],
            &mut [],
            &mut count,
        );
        assert_eq!((after, count), (counts, 0));
        answer
    });
    let (mut after, mut count) = (counts, 7);
    let in_lookups = raw::split_in_lookups(
        &mut [],
        &mut [],
        &mut [],
        &mut after,
        u32::MAX,
        u32::MAX,
        edition,
        &mut [],
        &mut [],
        &mut [],
        &mut [],
        &mut [],
        &mut [],
        &mut count,
    );
    assert_eq!((after, count), (counts, 0));
    let plans = [raw::cut_plan, raw::cut_plan_markbasepos].map(|cut_plan| {
        let mut count = 7;
        let answer = cut_plan(
            &[],
            &[],
            &[],
            &counts,
            u32::MAX,
            edition,
            &mut [],
            &mut [],
            &mut [],
            &mut [],
            &mut [],
            &mut [],
            &mut count,
        );
        assert_eq!(count, 0);
        answer
    });
    [splits[0], splits[1], in_lookups, plans[0], plans[1]]
}

/// A part of a row is no row.
#[test]
fn half_a_row() {
    let (mut values, mut found) = ([0; 16], 0);
    let mut read = |objects: &[u32], links: &[u32], counts: [u32; 3]| {
        let (v, f) = (&mut values, &mut found);
        raw::read_pair(&[0, 3], objects, links, &counts, 0, 0, 0, v, f)
    };
    assert_eq!(read(&[0, 2, 2], &[0, 0, 2, 0], [2, 1, 0]), 0);
    assert_eq!(read(&[0, 2, 2], &[0, 0, 2, 0], [2, 2, 0]), 1);
    assert_eq!(read(&[0, 2, 2], &[0, 0, 2, 0], [2, 1, 1]), 1);
    assert_eq!(read(&[0, 2, 2], &[0, 0, 2, 0, 0], [2, 1, 1]), 0);
    // Two rows are ten numbers, and nine are one.
    let rows = [0, 0, 2, 0, 0, 0, 0, 0, 0, 1];
    assert_eq!(read(&[0, 2], &rows[..9], [2, 1, 2]), 1);
    assert_eq!(read(&[0, 2], &rows, [2, 1, 2]), 0);
}

/// What is known of a store that is cut: it, the room that it needs, its cut places and new tables, and
/// how much its calls need of walk, glyph set, glyphs, classes and cuts.
struct Known {
    kind: Kind,
    store: (Store, Room),
    places: &'static [u16],
    new_tables: &'static [u32],
    enough: [usize; 5],
}

/// Five objects, three glyphs and three sets; nine objects, four marks and three classes.
fn known() -> [Known; 2] {
    [
        Known {
            kind: Kind::Pairs,
            store: w7(),
            places: &[2],
            new_tables: &[5],
            enough: [10, 8_192, 3, 3, 3],
        },
        Known {
            kind: Kind::Marks,
            store: cut_marks(),
            places: &[1, 2],
            new_tables: &[9, 13],
            enough: [18, 8_192, 4, 4, 3],
        },
    ]
}

/// A list of three entries in which these come first.
fn list<N: Copy + From<u8>>(first: &[N]) -> [N; 3] {
    let mut list = [77.into(); 3];
    list[..first.len()].copy_from_slice(first);
    list
}

/// Scratch of these lengths, full of junk.
struct Scratch {
    walk: Vec<u32>,
    glyph_set: Vec<u8>,
    others: [Vec<u16>; 3],
}

impl Scratch {
    fn new([walk, glyph_set, glyphs, classes, cuts]: [usize; 5]) -> Self {
        Self {
            walk: vec![0xA5A5_A5A5; walk],
            glyph_set: vec![0xA5; glyph_set],
            others: [glyphs, classes, cuts].map(|len| vec![0xA5A5; len]),
        }
    }

    fn is_zero(&self) -> bool {
        self.walk.iter().all(|&number| number == 0)
            && self.glyph_set.iter().all(|&number| number == 0)
            && self.others.concat().iter().all(|&number| number == 0)
    }
}

/// The answer of a cut plan.
fn plan(known: &Known, edition: u32, lengths: [usize; 5]) -> u32 {
    let (data, objects, links, counts) = known.store.0.clone().into_parts();
    let mut scratch = Scratch::new(lengths);
    let [glyphs, classes, cuts] = &mut scratch.others;
    let cut_plan = match known.kind {
        Kind::Pairs => raw::cut_plan,
        Kind::Marks => raw::cut_plan_markbasepos,
    };
    let (mut places, mut count) = ([77; 3], 77);
    let answer = cut_plan(
        &data,
        &objects,
        &links,
        &counts,
        0,
        edition,
        &mut scratch.walk,
        &mut scratch.glyph_set,
        glyphs,
        classes,
        cuts,
        &mut places,
        &mut count,
    );
    let planned = if answer == 0 { known.places } else { &[] };
    assert_eq!((places, count as usize), (list(planned), planned.len()));
    assert!(scratch.is_zero());
    answer
}

/// The answer of a split, with exact room.
fn split(known: &Known, edition: u32, lengths: [usize; 5]) -> u32 {
    let (mut store, room) = known.store.clone();
    store.reserve(room);
    let before = store.clone();
    let (mut data, mut objects, mut links, mut counts) = store.into_parts();
    let mut scratch = Scratch::new(lengths);
    let [glyphs, classes, cuts] = &mut scratch.others;
    let split = match known.kind {
        Kind::Pairs => raw::split_pairpos,
        Kind::Marks => raw::split_markbasepos,
    };
    let (mut new_tables, mut count) = ([77; 3], 77);
    let answer = split(
        &mut data,
        &mut objects,
        &mut links,
        &mut counts,
        0,
        edition,
        &mut scratch.walk,
        &mut scratch.glyph_set,
        glyphs,
        classes,
        cuts,
        &mut new_tables,
        &mut count,
    );
    let listed = if answer == 0 { known.new_tables } else { &[] };
    assert_eq!((new_tables, count as usize), (list(listed), listed.len()));
    assert!(scratch.is_zero());
    let after = Store::from_parts(data, objects, links, counts).unwrap();
    assert_eq!(after == before, answer != 0);
    answer
}

fn with_scratch(known: &Known, edition: u32, lengths: [usize; 5]) -> [u32; 2] {
    [
        split(known, edition, lengths),
        plan(known, edition, lengths),
    ]
}

/// The answer of a split that enters new tables in lookups, with exact room.
fn split_listed(edition: u32, lengths: [usize; 5], list: u32) -> u32 {
    let (mut store, room) = listed();
    store.reserve(room);
    let before = store.clone();
    let (mut data, mut objects, mut links, mut counts) = store.into_parts();
    let mut scratch = Scratch::new(lengths);
    let [glyphs, classes, cuts] = &mut scratch.others;
    let (mut new_tables, mut count) = ([77; 3], 77);
    let answer = raw::split_in_lookups(
        &mut data,
        &mut objects,
        &mut links,
        &mut counts,
        list,
        0,
        edition,
        &mut scratch.walk,
        &mut scratch.glyph_set,
        glyphs,
        classes,
        cuts,
        &mut new_tables,
        &mut count,
    );
    let listed: &[u32] = if answer == 0 { &[9] } else { &[] };
    assert_eq!(
        (new_tables, count as usize),
        (self::list(listed), listed.len())
    );
    assert!(scratch.is_zero());
    let after = Store::from_parts(data, objects, links, counts).unwrap();
    assert_eq!(after == before, answer != 0);
    answer
}

/// A list that is none is refused before a scratch is looked at, and an edition that is none before the list.
#[test]
fn scratch_at_its_edge_in_lookups() {
    let enough = [18, 8_192, 3, 3, 3];
    for edition in EDITIONS {
        assert_eq!(split_listed(edition, enough, LIST), 0);
        for short in 0..5 {
            let mut lengths = enough;
            lengths[short] -= 1;
            assert_eq!(split_listed(edition, lengths, LIST), 6);
            assert_eq!(split_listed(edition, lengths, 0), 9);
        }
        assert_eq!(split_listed(edition, [0; 5], LIST), 6);
        assert_eq!(split_listed(edition, [0; 5], 0), 9);
    }
    for edition in OTHERS {
        assert_eq!(split_listed(edition, enough, LIST), 12);
        assert_eq!(split_listed(edition, [0; 5], 0), 12);
    }
}

/// Exactly enough, more, one short of each, and none. Of an edition that is none nothing is enough, and the
/// scratch is cleared all the same.
#[test]
fn scratch_at_its_edge() {
    for known in known() {
        let enough = known.enough;
        for edition in EDITIONS {
            let with = |lengths| with_scratch(&known, edition, lengths);
            assert_eq!(with(enough), [0; 2]);
            assert_eq!(with(enough.map(|len| len + 3)), [0; 2]);
            for short in 0..5 {
                let mut lengths = enough;
                lengths[short] -= 1;
                assert_eq!(with(lengths), [6; 2]);
            }
            assert_eq!(with([0; 5]), [6; 2]);
        }
        for edition in OTHERS {
            assert_eq!(with_scratch(&known, edition, enough), [12; 2]);
            assert_eq!(with_scratch(&known, edition, [3; 5]), [12; 2]);
        }
    }
}
