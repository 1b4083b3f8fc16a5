//! The two editions of the cutting rule, and what the tables take that each leaves.

mod common;

use common::{bytes, cut_marks, empty_slot, format1, listed, marks, store, w10, w12, w7, LIST};
use splitter::{
    cut_plan, read_pair, split, split_graph, split_in_lookups, split_in_lookups_into, split_into,
    Edition::{self, First, Second},
    Fit, Kind, ObjectGraph, Past, Scratch, Store,
};

/// Where each edition cuts a table, object 0.
fn places(kind: Kind, store: &Store) -> [Vec<u16>; 2] {
    Edition::ALL.map(|edition| {
        let places = kind.cut_plan(store, 0, edition, &mut Scratch::new());
        places.unwrap()
    })
}

/// The tables that a split leaves, counted in the store after it. Before it they were counted alike.
fn after(kind: Kind, store: &Store, edition: Edition) -> Vec<(usize, Option<Past>)> {
    let mut scratch = Scratch::new();
    let places = kind.cut_plan(store, 0, edition, &mut scratch).unwrap();
    let before = kind.fits_at(store, 0, &places).unwrap();
    let mut store = store.clone();
    let new_tables = kind.split(&mut store, 0, edition, &mut scratch).unwrap();
    let tables = [&[0], &new_tables[..]].concat();
    let mut start = 0;
    let fits = tables.iter().zip(&before).map(|(&table, before)| {
        let fit = kind.fit(&store, table).unwrap();
        let items = start..start + fit.items.len();
        start = items.end;
        assert_eq!(
            Fit {
                items,
                ..fit.clone()
            },
            *before
        );
        assert_eq!(fit.is_within(), fit.bytes <= Fit::LIMIT);
        (fit.bytes, fit.past)
    });
    let fits = fits.collect();
    assert_eq!(before.len(), tables.len());
    fits
}

/// W9 and W10, and what has no difference.
#[test]
fn figures() {
    let pairs = |store: &Store| places(Kind::Pairs, store);
    assert_eq!(pairs(&w7().0), [[2], [2]]);
    assert_eq!(pairs(&w12()), [[162], [162]]);
    assert_eq!(pairs(&format1(&[65_517])), [[], []]);
    assert_eq!(pairs(&format1(&[65_518])), [vec![0], vec![]]);
    assert_eq!(pairs(&w10()), [vec![1], vec![1, 2]]);
    assert_eq!(places(Kind::Marks, &cut_marks().0), [[1, 2], [1, 2]]);
    let too_large = marks([65_535, 6, 6]);
    assert_eq!(places(Kind::Marks, &too_large), [vec![0, 1], vec![1]]);
}

/// 10 bytes and 4 for two slots, 8 of coverage, and what the set has: the slot that is empty counts.
#[test]
fn an_empty_slot_at_the_limit() {
    for (length, second) in [(65_513, vec![]), (65_514, vec![1])] {
        let store = empty_slot(length);
        assert_eq!(places(Kind::Pairs, &store), [vec![], second]);
    }
    let past = Some(Past::EmptySlots);
    assert_eq!(
        after(Kind::Pairs, &empty_slot(65_514), First),
        [(65_536, past)]
    );
    let tables = [(65_532, None), (18, None)];
    assert_eq!(after(Kind::Pairs, &empty_slot(65_514), Second), tables);
}

/// What the set at the cut shares with the one before makes the new table too large.
#[test]
fn what_the_item_at_a_cut_shares() {
    let kept = (40_118, None);
    let first = [kept, (90_022, Some(Past::Together))];
    assert_eq!(after(Kind::Pairs, &w10(), First), first);
    let one_item = (70_018, Some(Past::OneItem));
    assert_eq!(
        after(Kind::Pairs, &w10(), Second),
        [kept, one_item, (20_018, None)]
    );
}

/// A first item that is too large by itself: edition 1 leaves an empty table, edition 2 a table of that item.
#[test]
fn an_item_too_large_by_itself() {
    let store = format1(&[65_518, 10]);
    let too_large = (65_536, Some(Past::OneItem));
    let others = [(14, None), (28, None)];
    assert_eq!(places(Kind::Pairs, &store), [vec![0, 1], vec![1]]);
    assert_eq!(
        after(Kind::Pairs, &store, First),
        [others[0], too_large, others[1]]
    );
    assert_eq!(after(Kind::Pairs, &store, Second), [too_large, others[1]]);
    let marks = marks([65_535, 6, 6]);
    let tables = after(Kind::Marks, &marks, Second);
    assert_eq!(
        tables.iter().map(|(_, past)| *past).collect::<Vec<_>>(),
        [Some(Past::OneItem), None]
    );
}

/// A table that is not cut keeps its coverage, which may be longer than a split would write it.
#[test]
fn parts_as_they_stand() {
    // One glyph of 100 that are covered has a pair set.
    let coverage: Vec<u16> = [1, 100]
        .into_iter()
        .chain((0..100).map(|it| 3 * it))
        .collect();
    let mut one = store(
        &[&[1, 0, 4, 0, 1, 0], &coverage, &[1, 70, 1]],
        &[[0, 2, 1], [0, 10, 2]],
    );
    let rest = one.add_object(&[0; 65_400]).unwrap();
    one.add_link(2, 0, rest).unwrap();
    assert_eq!(places(Kind::Pairs, &one), [[], []]);
    let bytes = 12 + 204 + 6 + 65_400;
    assert_eq!(
        after(Kind::Pairs, &one, Second),
        [(bytes, Some(Past::LongParts))]
    );
}

/// A base coverage that leaves no room: edition 1 cuts an empty table off, and nothing helps.
#[test]
fn a_base_coverage_that_is_too_long() {
    let bases: Vec<u16> = [1, 32_765]
        .into_iter()
        .chain((0..32_765).map(|it| 2 * it))
        .collect();
    let objects: [&[u16]; 5] = [&[1, 0, 0, 1, 0, 0], &[1, 0], &bases, &[0], &[0]];
    let links = [[0, 2, 1], [0, 4, 2], [0, 8, 3], [0, 10, 4]];
    let marks = store(&objects, &links);
    assert_eq!(places(Kind::Marks, &marks), [vec![0], vec![]]);
    let past = (65_554, Some(Past::BaseCoverage));
    assert_eq!(after(Kind::Marks, &marks, First), [past, past]);
    assert_eq!(after(Kind::Marks, &marks, Second), [past]);
}

/// In format 2 the largest of coverage and class definitions is not counted: of a kept table 324 rows.
#[test]
fn rows_but_for_the_largest_part() {
    let tables = [(16 + 400 * 162 + 10 + 328, None), (3_216 + 10 + 20, None)];
    for edition in Edition::ALL {
        assert_eq!(after(Kind::Pairs, &w12(), edition), tables);
    }
}

/// What cannot be counted: other formats, tables that cannot be read, and cuts that are none.
#[test]
fn what_is_not_counted() {
    let (sets, _) = w7();
    let fits = |cuts: &[u16]| Kind::Pairs.fits_at(&sets, 0, cuts);
    let ends = |cuts: &[u16]| -> Option<Vec<usize>> {
        let fits = fits(cuts)?;
        let starts = fits.iter().map(|fit| fit.items.start);
        let ends = fits.iter().map(|fit| fit.items.end);
        assert!(starts.eq([0].into_iter().chain(ends.clone()).take(fits.len())));
        Some(ends.collect())
    };
    assert_eq!(ends(&[]), Some(vec![3]));
    assert_eq!(ends(&[0]), Some(vec![0, 3]));
    assert_eq!(ends(&[1, 2]), Some(vec![1, 2, 3]));
    for cuts in [&[3][..], &[2, 1], &[1, 1], &[1, 3]] {
        assert_eq!(ends(cuts), None);
    }
    assert_eq!(Kind::Marks.fit(&sets, 0), None);
    for table in [1, 2, 5, u32::MAX] {
        assert_eq!(Kind::Pairs.fit(&sets, table), None);
    }
    let other = store(&[&[3, 0]], &[]);
    assert_eq!(Kind::Pairs.fit(&other, 0), None);
}

/// No table that edition 2 leaves is cut again. Edition 1 cuts off once more what is too large.
#[test]
fn splitting_again() {
    let mut scratch = Scratch::new();
    for store in [
        w10(),
        format1(&[65_518, 10, 65_600, 20]),
        empty_slot(65_514),
    ] {
        let mut after = store.clone();
        let new_tables = split(&mut after, 0, Second, &mut scratch).unwrap();
        for table in [&[0], &new_tables[..]].concat() {
            assert_eq!(cut_plan(&after, table, Second, &mut scratch), Ok(vec![]));
        }
    }
    let mut after = format1(&[65_518]);
    let new_tables = split(&mut after, 0, First, &mut scratch).unwrap();
    assert_eq!(
        cut_plan(&after, new_tables[0], First, &mut scratch),
        Ok(vec![0])
    );
    assert_eq!(
        cut_plan(&after, new_tables[0], Second, &mut scratch),
        Ok(vec![])
    );
}

/// Every call that cuts takes the edition.
#[test]
fn each_call_by_its_edition() {
    let mut scratch = Scratch::new();
    let tables = [1, 2].map(|count| vec![0; count]);
    for (edition, mut list) in Edition::ALL.into_iter().zip(tables) {
        let count = list.len();
        let mut lent = w10();
        lent.reserve(splitter::Room {
            data: 200,
            objects: 9,
            links: 9,
        });
        let answer = split_into(&mut lent, 0, edition, &mut scratch, &mut list);
        assert_eq!(answer, Ok(count));
        for piece in [&[0], &list[..]].concat() {
            assert!(read_pair(&lent, piece, 10, 70).is_ok());
        }

        let mut in_lookup = w10();
        let lookup = in_lookup.add_object(&bytes(&[2, 0, 1, 0])).unwrap();
        let lookups = in_lookup.add_object(&bytes(&[1, 0])).unwrap();
        in_lookup.add_link(lookups, 2, lookup).unwrap();
        in_lookup.add_link(lookup, 6, 0).unwrap();
        let entered = split_in_lookups(&mut in_lookup, lookups, 0, edition, &mut scratch);
        assert_eq!(entered.map(|tables| tables.len()), Ok(count));

        let mut graph = Objects(w10());
        let new_tables = split_graph(&mut graph, 0, edition);
        assert_eq!(new_tables.map(|tables| tables.len()), Ok(count));
    }
    let (mut lent, room) = listed();
    lent.reserve(room);
    let answer = split_in_lookups_into(&mut lent, LIST, 0, Second, &mut scratch, &mut [0; 2]);
    assert_eq!(answer, Ok(1));
}

/// A store as a graph: new objects stand behind its own, and others stay as they are.
struct Objects(Store);

impl ObjectGraph for Objects {
    type Id = u32;

    fn bytes(&self, object: u32) -> &[u8] {
        self.0.view().object(object).unwrap()
    }

    fn links(&self, object: u32) -> Vec<(u32, u32)> {
        let links = self.0.view().offsets_of(object);
        links.map(|link| (link.position, link.child)).collect()
    }

    fn add_object(&mut self, bytes: &[u8]) -> u32 {
        self.0.add_object(bytes).unwrap()
    }

    fn set_links(&mut self, _object: u32, _links: &[(u32, u32)]) {}

    fn shorten(&mut self, _object: u32, _bytes: &[u8]) {}
}

/// Numbers of editions.
#[test]
fn numbers() {
    assert_eq!(Edition::ALL.map(Edition::number), [1, 2]);
    for edition in Edition::ALL {
        assert_eq!(Edition::from_number(edition.number()), Some(edition));
    }
    assert_eq!([0, 3, u32::MAX].map(Edition::from_number), [None; 3]);
}
