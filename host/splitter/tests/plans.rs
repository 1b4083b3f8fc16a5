//! Cut plans of stores that are owned and of stores that are lent.

mod common;

use common::{format1, one_set, store, w12, w7, UNSORTED};
use splitter::{
    cut_plan, cut_plan_into, Edition::First, Refusal, Scratch, Store, StoreMut, StoreRef,
};

#[test]
fn places() {
    let mut scratch = Scratch::new();
    let mut places = |store: &Store| cut_plan(store, 0, First, &mut scratch).unwrap();
    assert_eq!(places(&w7().0), [2]);
    assert_eq!(places(&format1(&[65_517])), []);
    assert_eq!(places(&format1(&[65_518])), [0]);
    assert_eq!(places(&format1(&[65_518; 5])), [0, 1, 2, 3, 4]);
    assert_eq!(places(&w12()), [162]);
    assert_eq!(places(&store(&[&[3]], &[])), []);
}

/// Scratch is as long as the coverage asks for, in each of its forms.
#[test]
fn coverages() {
    let mut scratch = Scratch::new();
    let coverages: [&[u16]; 5] = [
        &[1, 0],
        &[2, 0],
        &[1, 3, 5, 7, 9],
        &[2, 2, 5, 7, 0, 9, 65_535, 3],
        &[2, 1, 0, 65_535, 0],
    ];
    for coverage in coverages {
        let store = store(&[&[1, 0, 4, 0, 0], coverage], &[[0, 2, 1]]);
        assert_eq!(cut_plan(&store, 0, First, &mut scratch), Ok(vec![]));
        assert_eq!(cut_plan(&store, 0, First, &mut Scratch::new()), Ok(vec![]));
    }
}

/// A list that is lent: too short, and longer than it must be.
#[test]
fn lent_lists() {
    let (store, _) = w7();
    let mut scratch = Scratch::new();
    let mut places = [77; 2];
    let answer = cut_plan_into(&store, 0, First, &mut scratch, &mut places[..0]);
    assert_eq!((answer, places), (Err(Refusal::NoRoom), [77; 2]));
    let answer = cut_plan_into(&store, 0, First, &mut scratch, &mut places);
    assert_eq!((answer, places), (Ok(1), [2, 77]));
}

#[test]
fn refusals() {
    let mut scratch = Scratch::new();
    let mut refused = |store: &Store, table: u32, refusal: Refusal| {
        assert_eq!(cut_plan(store, table, First, &mut scratch), Err(refusal));
        let mut places = [77; 9];
        let answer = cut_plan_into(store, table, First, &mut scratch, &mut places);
        assert_eq!((answer, places), (Err(refusal), [77; 9]));
    };
    refused(&w7().0, 5, Refusal::NoTable);
    refused(&store(&[&[1, 0, 0, 0, 1]], &[]), 0, Refusal::BadTable);
    refused(&store(&[&[1, 0, 0, 0, 0]], &[]), 0, Refusal::BadParts);
    let few = store(&[&[1, 0, 0, 0, 2, 0, 0], &[1, 1, 5]], &[[0, 2, 1]]);
    refused(&few, 0, Refusal::FewGlyphs);
    for [parent, position, child] in [[0, 4, 2], [4, 29_998, 0]] {
        let (mut store, _) = w7();
        store.add_link(parent, position, child).unwrap();
        refused(&store, 0, Refusal::BadLinks);
    }
    for set in UNSORTED {
        refused(&one_set(set), 0, Refusal::UnsortedSets);
    }
}

/// Buffers of the host's own, lent for reading and for a split.
#[test]
fn lent_buffers() {
    let mut scratch = Scratch::new();
    let (mut data, mut objects, mut links, mut counts) = w7().0.into_parts();
    let lent = StoreRef::new(&data, &objects, &links, &counts);
    assert_eq!(cut_plan(lent, 0, First, &mut scratch), Ok(vec![2]));
    let lent = StoreMut::new(&mut data, &mut objects, &mut links, &mut counts);
    assert_eq!(cut_plan(&lent, 0, First, &mut scratch), Ok(vec![2]));
    counts[2] += 1;
    let lent = StoreRef::new(&data, &objects, &links, &counts);
    assert_eq!(
        cut_plan(lent, 0, First, &mut scratch),
        Err(Refusal::Unsound)
    );
}

/// Counts of anything make no more scratch than there can be need of.
#[test]
fn scratch_has_an_end() {
    let lent = StoreRef::new(&[], &[], &[], &[u32::MAX; 3]);
    assert_eq!(
        cut_plan(lent, 0, First, &mut Scratch::new()),
        Err(Refusal::Unsound)
    );
}

/// One scratch for stores of any size, and after any refusal.
#[test]
fn scratch_is_kept() {
    let mut scratch = Scratch::new();
    for lengths in [&[40_000; 2][..], &[5_000; 200], &[6; 3], &[65_535; 5]] {
        let store = format1(lengths);
        let fresh = cut_plan(&store, 0, First, &mut Scratch::new());
        assert_eq!(cut_plan(&store, 0, First, &mut scratch), fresh);
        assert_eq!(
            cut_plan(&store, 1, First, &mut scratch),
            Err(Refusal::BadTable)
        );
    }
}
