//! Mark-to-base tables: attachments, cut plans and splits, and what is refused.

mod common;

use common::{bytes, cut_marks, marks, store};
use splitter::{
    cut_plan_marks, cut_plan_marks_into, read_mark, split_marks, split_marks_into, Attachment,
    Edition::First, Kind, Refusal, Scratch, Store, StoreMut, StoreRef,
};

/// Objects of a table, its parts and an anchor, with links at the slots of the table.
fn table(objects: [&[u16]; 5]) -> Store {
    let anchor = &[1, 0, 0];
    let objects = [&objects[..], &[anchor]].concat();
    store(&objects, &[[0, 2, 1], [0, 4, 2], [0, 8, 3], [0, 10, 4]])
}

fn plan(store: &Store) -> Result<Vec<u16>, Refusal> {
    cut_plan_marks(store, 0, First, &mut Scratch::new())
}

#[test]
fn anchors_of_mark_and_base() {
    let store = marks([6; 3]);
    for (mark, base_anchor) in [(10, 8), (20, 6), (30, 7), (40, 6)] {
        let attachment = Attachment {
            mark_anchor: 5,
            base_anchor,
        };
        assert_eq!(read_mark(&store, 0, mark, 60), Ok(Some(attachment)));
    }
}

/// A glyph that is not covered, on either side; an anchor that is missing, on either side; a covered
/// glyph past the array, on either side; and another format.
#[test]
fn no_attachment() {
    let whole = marks([6; 3]);
    for (mark, base) in [(11, 60), (60, 60), (10, 59), (10, 61)] {
        assert_eq!(read_mark(&whole, 0, mark, base), Ok(None));
    }
    let marks: &[u16] = &[1, 0, 0];
    let longer = [
        &[1, 0, 0, 1, 0, 0],
        &[1, 2, 10, 11][..],
        &[1, 2, 60, 61],
        marks,
        &[1, 0],
    ];
    let mut store = table(longer);
    store.add_link(4, 2, 5).unwrap();
    assert_eq!(read_mark(&store, 0, 10, 60), Ok(None));
    store.add_link(3, 4, 5).unwrap();
    let both = Attachment {
        mark_anchor: 5,
        base_anchor: 5,
    };
    assert_eq!(read_mark(&store, 0, 10, 60), Ok(Some(both)));
    for (mark, base) in [(11, 60), (10, 61)] {
        assert_eq!(read_mark(&store, 0, mark, base), Ok(None));
    }
    let other = common::store(&[&[2]], &[]);
    assert_eq!(read_mark(&other, 0, 10, 60), Ok(None));
    assert_eq!(plan(&other), Ok(vec![]));
}

/// What is written, to the last byte and link.
#[test]
fn three_classes_are_cut_at_1_and_2() {
    let (mut store, room) = cut_marks();
    let before = store.view().counts();
    let mut scratch = Scratch::new();
    assert_eq!(
        cut_plan_marks(&store, 0, First, &mut scratch),
        Ok(vec![1, 2])
    );
    assert_eq!(
        split_marks(&mut store, 0, First, &mut scratch),
        Ok(vec![9, 13])
    );

    let view = store.view();
    let added = [room.data, room.objects, room.links].map(|count| count as u32);
    let after = [0, 1, 2].map(|place| before[place] + added[place]);
    assert_eq!(view.counts(), after);
    let class: [&[u16]; 4] = [&[1, 0, 0, 1, 0, 0], &[1, 1, 30], &[1, 0, 0], &[2, 0, 0]];
    let last: [&[u16]; 4] = [&[1, 0, 0, 1, 0, 0], &[1, 1, 10], &[1, 0, 0], &[2, 0, 0]];
    let kept: [&[u16]; 3] = [&[1, 2, 20, 40], &[2, 0, 0, 0, 0], &[2, 0, 0]];
    let written = [&class[..], &last, &kept].concat();
    assert_eq!(view.data()[before[0] as usize..], bytes(&written.concat()));
    let links = |object| -> Vec<[u32; 2]> {
        let links = view.offsets_of(object);
        links.map(|link| [link.position, link.child]).collect()
    };
    assert_eq!(links(0), [[2, 17], [4, 2], [8, 18], [10, 19]]);
    assert_eq!(links(9), [[2, 10], [4, 2], [8, 11], [10, 12]]);
    assert_eq!([links(18), links(19)], [vec![[4, 5], [8, 5]], vec![[2, 6]]]);
    assert_eq!([links(11), links(12)], [vec![[4, 5]], vec![[2, 7]]]);
    // The old arrays are as they were.
    assert_eq!([links(3).len(), links(4).len()], [4, 3]);
}

#[test]
fn attachments_read_as_before() {
    let (old, _) = cut_marks();
    let mut new = old.clone();
    let new_tables = split_marks(&mut new, 0, First, &mut Scratch::new()).unwrap();
    let tables = [&[0], &new_tables[..]].concat();
    let mut found = 0;
    for mark in (0..50).step_by(5) {
        for base in 58..64 {
            let read = tables.iter().map(|&it| read_mark(&new, it, mark, base));
            let read: Vec<_> = read.filter_map(Result::unwrap).collect();
            let before = read_mark(&old, 0, mark, base).unwrap();
            assert_eq!(read, Vec::from_iter(before));
            found += read.len();
        }
    }
    assert_eq!(found, 4);
}

/// Splitting again adds nothing, and a table that fits stays.
#[test]
fn nothing_to_split() {
    let (mut store, _) = cut_marks();
    let mut scratch = Scratch::new();
    split_marks(&mut store, 0, First, &mut scratch).unwrap();
    let split = store.clone();
    for table in [0, 9, 13] {
        assert_eq!(
            split_marks(&mut store, table, First, &mut scratch),
            Ok(vec![])
        );
    }
    assert_eq!(store, split);
    let mut fits = marks([6; 3]);
    assert_eq!(split_marks(&mut fits, 0, First, &mut scratch), Ok(vec![]));
    assert_eq!(fits, marks([6; 3]));
}

/// All three classes are 72 bytes beside the anchors of the bases, and class 0 alone is 52. A class that
/// is too large by itself is cut off, and so is the next one.
#[test]
fn at_the_limit() {
    let places = |lengths| plan(&marks(lengths)).unwrap();
    assert_eq!(places([6, 65_451, 6]), []);
    assert_eq!(places([6, 65_452, 6]), [2]);
    assert_eq!(places([65_483, 6, 6]), [1]);
    assert_eq!(places([65_484, 6, 6]), [0, 1]);
}

/// Room that is exactly enough, one short of each, and a list that is too short.
#[test]
fn room_at_its_edge() {
    let (store, room) = cut_marks();
    let mut scratch = Scratch::new();
    let mut split = |room, entries: usize| {
        let mut store = store.clone();
        store.reserve(room);
        let mut list = [77; 3];
        let answer = split_marks_into(&mut store, 0, First, &mut scratch, &mut list[..entries]);
        if answer.is_err() {
            assert_eq!(list, [77; 3]);
            assert_eq!(store.view().counts(), cut_marks().0.view().counts());
        }
        (answer, list)
    };
    assert_eq!(split(room, 3), (Ok(2), [9, 13, 77]));
    assert_eq!(split(room, 2).0, Ok(2));
    assert_eq!(split(room, 1).0, Err(Refusal::NoRoom));
    let mut short = [room; 3];
    short[0].data -= 1;
    short[1].objects -= 1;
    short[2].links -= 1;
    for room in short {
        assert_eq!(split(room, 2).0, Err(Refusal::NoRoom));
    }
    let mut places = [77; 3];
    let mut plan = |entries: usize| {
        let answer = cut_plan_marks_into(
            &store,
            0,
            First,
            &mut Scratch::new(),
            &mut places[..entries],
        );
        (answer, places)
    };
    assert_eq!(plan(1), (Err(Refusal::NoRoom), [77; 3]));
    assert_eq!(plan(3), (Ok(2), [1, 2, 77]));
}

#[test]
fn refusals() {
    let refused = |store: &Store, table: u32, refusal: Refusal| {
        let mut scratch = Scratch::new();
        assert_eq!(
            cut_plan_marks(store, table, First, &mut scratch),
            Err(refusal)
        );
        let mut same = store.clone();
        assert_eq!(
            split_marks(&mut same, table, First, &mut scratch),
            Err(refusal)
        );
        assert_eq!(same, *store);
        let reads = !matches!(refusal, Refusal::BadLinks);
        let read = read_mark(store, table, 10, 60);
        assert_eq!(read.err(), reads.then_some(refusal));
    };
    let head: &[u16] = &[1, 0, 0, 1, 0, 0];
    let (glyph, marks, bases): (&[u16], &[u16], &[u16]) = (&[1, 1, 10], &[1, 0, 0], &[1, 0]);
    refused(
        &table([head, glyph, glyph, marks, bases]),
        9,
        Refusal::NoTable,
    );
    refused(&store(&[&[1, 0, 0, 1, 0]], &[]), 0, Refusal::BadTable);
    refused(&store(&[head], &[]), 0, Refusal::BadParts);
    // A coverage of format 3, a class at the class count, and arrays of other lengths.
    for parts in [
        [head, &[3, 0], glyph, marks, bases],
        [head, glyph, &[3, 0], marks, bases],
        [head, glyph, glyph, &[1, 1, 0], bases],
        [head, glyph, glyph, &[1, 0, 0, 0], bases],
        [head, glyph, glyph, marks, &[1, 0, 0]],
    ] {
        refused(&table(parts), 0, Refusal::BadParts);
    }
    let few = [head, glyph, glyph, &[2, 0, 0, 0, 0], bases];
    refused(&table(few), 0, Refusal::FewGlyphs);
    for [parent, position, child] in [[0, 6, 5], [3, 2, 5], [4, 0, 5], [5, 2, 0]] {
        let mut store = table([head, glyph, glyph, marks, bases]);
        store.add_link(4, 2, 5).unwrap();
        store.add_link(parent, position, child).unwrap();
        let mut scratch = Scratch::new();
        assert_eq!(
            cut_plan_marks(&store, 0, First, &mut scratch),
            Err(Refusal::BadLinks)
        );
        assert_eq!(read_mark(&store, 0, 10, 60), Ok(None));
    }
}

/// Buffers of the host's own.
#[test]
fn lent_buffers() {
    let (mut store, room) = cut_marks();
    store.reserve(room);
    let (mut data, mut objects, mut links, mut counts) = store.into_parts();
    let mut scratch = Scratch::new();
    let lent = StoreRef::new(&data, &objects, &links, &counts);
    assert_eq!(cut_plan_marks(lent, 0, First, &mut scratch), Ok(vec![1, 2]));
    assert!(read_mark(lent, 0, 30, 60).unwrap().is_some());
    let lent = StoreMut::new(&mut data, &mut objects, &mut links, &mut counts);
    let mut new_tables = [0; 2];
    assert_eq!(
        split_marks_into(lent, 0, First, &mut scratch, &mut new_tables),
        Ok(2)
    );
    assert_eq!(new_tables, [9, 13]);
    counts[2] += 1;
    let lent = StoreRef::new(&data, &objects, &links, &counts);
    assert_eq!(read_mark(lent, 0, 30, 60), Err(Refusal::Unsound));
    assert_eq!(
        cut_plan_marks(lent, 0, First, &mut scratch),
        Err(Refusal::Unsound)
    );
}

/// A table of one kind is no table of the other.
#[test]
fn kinds_are_told_apart_by_the_caller() {
    let mut scratch = Scratch::new();
    let (marks, _) = cut_marks();
    let (sets, _) = common::w7();
    assert_eq!(
        Kind::Marks.cut_plan(&marks, 0, First, &mut scratch),
        Ok(vec![1, 2])
    );
    assert_eq!(
        Kind::Pairs.cut_plan(&marks, 0, First, &mut scratch),
        Err(Refusal::BadTable)
    );
    assert_eq!(
        Kind::Pairs.cut_plan(&sets, 0, First, &mut scratch),
        Ok(vec![2])
    );
    assert_eq!(
        Kind::Marks.cut_plan(&sets, 0, First, &mut scratch),
        Err(Refusal::BadTable)
    );
    assert_eq!([2, 4].map(Kind::of_lookup), Kind::ALL.map(Some));
    assert_eq!([0, 1, 3, 5, 9].map(Kind::of_lookup), [None; 5]);
}
