//! Splits of stores that are owned and of stores that are lent.

mod common;

use common::{bytes, format1, one_set, store, w12, w7, UNSORTED};
use splitter::{
    read_pair, split, split_into, Edition::First, Refusal, Room, Scratch, Store, StoreMut,
};

/// What is in use of a store: bytes of objects, and links.
fn contents(store: &Store) -> (Vec<Vec<u8>>, Vec<[u32; 3]>) {
    let view = store.view();
    let objects = (0..view.counts()[1]).map(|object| view.object(object).unwrap().to_vec());
    let links = view.links();
    let links = links.map(|link| [link.parent, link.position, link.child]);
    (objects.collect(), links.collect())
}

/// W7: what is written, to the last byte and link.
#[test]
fn three_sets_are_cut_at_2() {
    let (mut store, _) = w7();
    let (mut objects, _) = contents(&store);
    assert_eq!(
        split(&mut store, 0, First, &mut Scratch::new()),
        Ok(vec![5])
    );

    objects[0] = bytes(&[1, 0, 4, 0, 2, 0, 0]);
    objects.extend([&[1, 0, 4, 0, 1, 0][..], &[1, 1, 30], &[1, 2, 10, 20]].map(bytes));
    let links = [[0, 2, 7], [0, 10, 2], [0, 12, 3], [5, 2, 6], [5, 10, 4]];
    assert_eq!(contents(&store), (objects, links.to_vec()));
}

#[test]
fn rows_are_cut_at_162() {
    let mut store = w12();
    assert_eq!(
        split(&mut store, 0, First, &mut Scratch::new()),
        Ok(vec![4])
    );
    let view = store.view();
    assert_eq!(view.object(4).unwrap().len(), 3_216);
    assert_eq!(view.object(0).unwrap().len(), 16 + 400 * 162);
    assert_eq!(view.counts()[1..], [9, 6]);
    assert_eq!(view.child(4, 10), view.child(0, 10));
}

#[test]
fn pairs_read_as_before() {
    for lengths in [
        &[30_000; 9][..],
        &[65_530, 10, 65_530, 65_520],
        &[70_000; 3],
    ] {
        let (old, mut new) = (format1(lengths), format1(lengths));
        let mut tables = split(&mut new, 0, First, &mut Scratch::new()).unwrap();
        assert!(tables.len() > 1);
        tables.push(0);
        for glyph in (0..100).step_by(5) {
            let pairs = tables
                .iter()
                .map(|&table| read_pair(&new, table, glyph, 70));
            let pairs: Vec<_> = pairs.filter_map(Result::unwrap).collect();
            let before = read_pair(&old, 0, glyph, 70).unwrap();
            assert_eq!(pairs, Vec::from_iter(before));
        }
    }
}

/// At the limit, of another format, and one byte past the limit, where the first cut is at 0.
#[test]
fn nothing_to_split() {
    let mut scratch = Scratch::new();
    for before in [format1(&[65_517]), store(&[&[3]], &[])] {
        let mut after = before.clone();
        assert_eq!(split(&mut after, 0, First, &mut scratch), Ok(vec![]));
        assert_eq!(after, before);
    }
    let mut past = format1(&[65_518]);
    assert_eq!(split(&mut past, 0, First, &mut scratch), Ok(vec![4]));
    assert_eq!(past.view().object(0).unwrap().len(), 10);
}

/// A store grows, and is then what it is with the exact room.
#[test]
fn growth_is_as_exact_room() {
    let (mut grown, room) = w7();
    let (mut exact, _) = w7();
    exact.reserve(room);
    let mut scratch = Scratch::new();
    assert_eq!(split(&mut exact, 0, First, &mut scratch), Ok(vec![5]));
    assert_eq!(exact.room(), Room::default());
    assert_eq!(split(&mut grown, 0, First, &mut scratch), Ok(vec![5]));
    grown.reserve(Room::default());
    assert_eq!(grown, exact);
}

/// Each of data, objects, links and list one short.
#[test]
fn room_that_is_one_short() {
    let (store, enough) = w7();
    let less = |data, objects, links| Room {
        data: enough.data - data,
        objects: enough.objects - objects,
        links: enough.links - links,
    };
    let lent = [
        (less(1, 0, 0), 1),
        (less(0, 1, 0), 1),
        (less(0, 0, 1), 1),
        (enough, 0),
    ];
    let mut scratch = Scratch::new();
    for (room, entries) in lent {
        let mut store = store.clone();
        store.reserve(room);
        let before = store.clone();
        let mut list = [77; 2];
        let answer = split_into(&mut store, 0, First, &mut scratch, &mut list[..entries]);
        assert_eq!(answer, Err(Refusal::NoRoom));
        assert_eq!((store, list), (before, [77; 2]));
    }
    let mut store = store.clone();
    store.reserve(enough);
    let mut list = [77; 2];
    assert_eq!(
        split_into(&mut store, 0, First, &mut scratch, &mut list),
        Ok(1)
    );
    assert_eq!(list, [5, 77]);
}

/// W7 in a store that is all but full. There is just enough room, and then a bit less.
fn assert_ends(fill: impl Fn(&mut Store, usize)) {
    let [mut enough, mut short] = [w7().0, w7().0];
    fill(&mut enough, 0);
    fill(&mut short, 1);
    let mut scratch = Scratch::new();
    let before = short.clone();
    assert_eq!(
        split(&mut short, 0, First, &mut scratch),
        Err(Refusal::NoRoom)
    );
    assert_eq!(short, before);
    let new_table = enough.view().counts()[1];
    assert_eq!(
        split(&mut enough, 0, First, &mut scratch),
        Ok(vec![new_table])
    );
    let pair = read_pair(&enough, new_table, 30, 70).unwrap();
    assert_eq!(pair.unwrap().first.x_advance, 3);
}

#[test]
fn data_grow_to_their_maximum() {
    assert_ends(|store, more| {
        let rest = Room::MOST.data - store.view().data().len() - 26 + more;
        store.add_object(&vec![0; rest]).unwrap();
    });
}

#[test]
fn objects_grow_to_their_maximum() {
    assert_ends(|store, more| {
        for _ in 5..Room::MOST.objects - 3 + more {
            store.add_object(&[]).unwrap();
        }
    });
}

#[test]
fn links_grow_to_their_maximum() {
    assert_ends(|store, more| {
        let rest = Room::MOST.links - 4 - 1 + more;
        let parent = store.add_object(&vec![0; rest + 1]).unwrap();
        for position in 0..rest as u32 {
            store.add_link(parent, position, 0).unwrap();
        }
    });
}

#[test]
fn refusals_change_nothing() {
    let mut scratch = Scratch::new();
    let mut refused = |mut store: Store, table: u32, refusal: Refusal| {
        store.reserve(w7().1);
        let before = store.clone();
        assert_eq!(split(&mut store, table, First, &mut scratch), Err(refusal));
        let mut list = [77; 9];
        let answer = split_into(&mut store, table, First, &mut scratch, &mut list);
        assert_eq!((answer, list), (Err(refusal), [77; 9]));
        assert_eq!(store, before);
    };
    refused(w7().0, 5, Refusal::NoTable);
    refused(store(&[&[1, 0, 0, 0, 1]], &[]), 0, Refusal::BadTable);
    refused(store(&[&[1, 0, 0, 0, 0]], &[]), 0, Refusal::BadParts);
    let few = store(&[&[1, 0, 0, 0, 2, 0, 0], &[1, 1, 5]], &[[0, 2, 1]]);
    refused(few, 0, Refusal::FewGlyphs);
    for [parent, position, child] in [[0, 4, 2], [4, 29_998, 0]] {
        let (mut store, _) = w7();
        store.add_link(parent, position, child).unwrap();
        refused(store, 0, Refusal::BadLinks);
    }
    for set in UNSORTED {
        refused(one_set(set), 0, Refusal::UnsortedSets);
    }
}

/// Buffers of the host's own: refused, and then split as an owned store is.
#[test]
fn lent_buffers() {
    let mut scratch = Scratch::new();
    let (mut store, room) = w7();
    store.reserve(room);
    let (mut data, mut objects, mut links, mut counts) = store.clone().into_parts();
    let before = (data.clone(), objects.clone(), links.clone());
    let mut list = [77];
    counts[2] += 2;
    let mut lent = StoreMut::new(&mut data, &mut objects, &mut links, &mut counts);
    let answer = split_into(&mut lent, 0, First, &mut scratch, &mut list);
    assert_eq!((answer, list), (Err(Refusal::Unsound), [77]));
    assert_eq!(before, (data.clone(), objects.clone(), links.clone()));

    counts[2] -= 2;
    let lent = StoreMut::new(&mut data, &mut objects, &mut links, &mut counts);
    assert_eq!(split_into(lent, 0, First, &mut scratch, &mut list), Ok(1));
    split(&mut store, 0, First, &mut scratch).unwrap();
    assert_eq!(Store::from_parts(data, objects, links, counts), Ok(store));
}

/// One scratch for stores of any size, and after any refusal.
#[test]
fn scratch_is_kept() {
    let mut scratch = Scratch::new();
    for lengths in [&[40_000; 2][..], &[5_000; 200], &[6; 3], &[65_535; 5]] {
        let (mut kept, mut fresh) = (format1(lengths), format1(lengths));
        let tables = split(&mut kept, 0, First, &mut scratch);
        assert_eq!(tables, split(&mut fresh, 0, First, &mut Scratch::new()));
        assert_eq!(kept, fresh);
        assert_eq!(split(&mut kept, 0, First, &mut scratch), Ok(vec![]));
        assert_eq!(
            split(&mut kept, 1, First, &mut scratch),
            Err(Refusal::BadTable)
        );
    }
}
