//! Compactions of stores that are owned and of stores that are lent.

mod common;

use common::{bytes, cut_marks, format1, listed, store, w7, LIST};
use splitter::{
    apply_lookup, compact, explain::explain_compaction_lent, explain_compaction, raw, read_mark,
    read_pair, split, split_in_lookups, split_into, split_marks, Attachment, Compacted,
    Edition::First, Freed, Link, Refusal, Room, Scratch, Store, StoreMut, Values,
};

/// Six objects: 5 leads to 3, 3 to 1 and 1 to 3, and nothing leads to 0, 2 or 4, which is empty. Order-only
/// links lead from and to everything.
fn six() -> Store {
    let objects: [&[u16]; 6] = [&[0xA], &[0xB, 0xB], &[0xC], &[0xD; 3], &[], &[0xE; 2]];
    let mut store = store(&objects, &[[5, 2, 3], [3, 0, 1], [1, 2, 3], [2, 0, 5]]);
    let orders = [[0, 5], [1, 0], [1, 1], [3, 4], [5, 1], [5, 2], [5, 3]];
    let orders = orders.map(|[parent, child]| Link::order_only(parent, child));
    store.add_links(orders).unwrap();
    store
}

/// What is in use of a store: bytes of objects, and links.
fn contents(store: &Store) -> (Vec<Vec<u8>>, Vec<Link>) {
    let view = store.view();
    let objects = (0..view.counts()[1]).map(|object| view.object(object).unwrap().to_vec());
    (objects.collect(), view.links().collect())
}

fn room(data: usize, objects: usize, links: usize) -> Room {
    Room {
        data,
        objects,
        links,
    }
}

/// What is kept, to the last byte and link, and what is freed.
#[test]
fn what_roots_reach_is_kept_in_order() {
    let mut store = six();
    let compacted = store.compact(&[5]).unwrap();
    // The first object went, so all three start elsewhere.
    let expected = Compacted {
        roots: vec![2],
        freed: room(4, 3, 5),
        moved: 14,
    };
    assert_eq!(compacted, expected);
    let objects = [&[0xB, 0xB][..], &[0xD; 3], &[0xE; 2]].map(bytes);
    let links = [
        Link::offset(0, 2, 1),
        Link::order_only(0, 0),
        Link::offset(1, 0, 0),
        Link::offset(2, 2, 1),
        Link::order_only(2, 0),
        Link::order_only(2, 1),
    ];
    assert_eq!(contents(&store), (objects.to_vec(), links.to_vec()));
    // What is freed is room, and zero.
    assert_eq!(store.room(), room(4, 3, 5));
    let (data, objects, links, counts) = store.into_parts();
    assert_eq!(counts, [14, 3, 6]);
    assert_eq!(data[14..], [0; 4]);
    assert_eq!(objects[..6], [0, 4, 4, 10, 10, 14]);
    assert_eq!(objects[6..], [0; 6]);
    assert_eq!(links[30..], [0; 25]);
}

/// In any order, and more than once; of none nothing is kept, and of all everything.
#[test]
fn lists_of_roots() {
    let of = |roots: &[u32]| {
        let mut store = six();
        let compacted = store.compact(roots).unwrap();
        (store, compacted)
    };
    let (store, compacted) = of(&[5, 4, 1, 5]);
    assert_eq!(compacted.roots, [3, 2, 0, 3]);
    assert_eq!(contents(&store), contents(&of(&[4, 5]).0));

    let (store, compacted) = of(&[]);
    assert_eq!(store.view().counts(), [0; 3]);
    assert_eq!(compacted.freed, room(18, 6, 11));
    assert_eq!((compacted.roots, compacted.moved), (vec![], 0));

    let (store, compacted) = of(&[0, 1, 2, 3, 4, 5]);
    assert_eq!(store, six());
    assert_eq!(compacted.freed, Room::default());
    assert_eq!(compacted.moved, 0);
}

/// What lies behind stays in its place, so nothing moves, though numbers change and objects go.
#[test]
fn an_empty_object_goes_and_nothing_moves() {
    let mut store = store(&[&[1], &[], &[2], &[3]], &[]);
    let compacted = store.compact(&[0, 2]).unwrap();
    assert_eq!(compacted.roots, [0, 1]);
    assert_eq!(compacted.freed, room(2, 2, 0));
    assert_eq!(compacted.moved, 0);
}

#[test]
fn again_changes_nothing() {
    let mut store = six();
    let once = store.compact(&[5, 3]).unwrap();
    let before = store.clone();
    let twice = store.compact(&once.roots).unwrap();
    assert_eq!(store, before);
    assert_eq!(
        (twice.roots, twice.freed, twice.moved),
        (once.roots, Room::default(), 0)
    );
}

/// The first root that is not in use is named, and nothing has changed.
#[test]
fn roots_that_are_not_in_use() {
    for (roots, entry) in [(&[6][..], 0), (&[5, u32::MAX, 6], 1), (&[0, 5, 6], 2)] {
        let mut store = six();
        assert_eq!(store.compact(roots), Err(Refusal::NoTable));
        assert_eq!(store, six());
        let mut lent = roots.to_vec();
        let answer = compact(&mut store, &mut lent, &mut Scratch::new());
        assert_eq!(answer, Err(Refusal::NoTable));
        assert_eq!((lent, store), (roots.to_vec(), six()));

        let explanation = explain_compaction(&six(), roots);
        assert_eq!(explanation.refusal(), Some(Refusal::NoTable));
        let sentence = format!(
            "entry {entry} of the list of roots is {}; it must be below 6, how many objects are in use",
            roots[entry]
        );
        assert_eq!(explanation.to_string(), sentence);
    }
    assert_eq!(explain_compaction(&six(), &[5]).number(), 0);
}

/// A store that is lent may be unsound, which comes first, and a walk of its own may be short, which comes
/// last.
#[test]
fn what_is_lent() {
    let (mut data, mut objects, mut links, mut counts) = six().into_parts();
    let walk = [7; 12];
    let mut call = |roots: &mut [u32], counts: &mut [u32; 3], walk: &mut [u32]| {
        let mut moved = 7;
        let (d, o, l) = (&mut data, &mut objects, &mut links);
        let answer = raw::compact(d, o, l, counts, roots, walk, &mut moved);
        assert!(walk.iter().all(|&number| number == 0));
        assert_eq!(answer == 0, moved != 0);
        answer
    };
    assert_eq!(
        call(&mut [9], &mut [18, 6, 12], &mut walk[..11].to_vec()),
        1
    );
    assert_eq!(call(&mut [9], &mut counts, &mut walk[..11].to_vec()), 2);
    assert_eq!(call(&mut [5], &mut counts, &mut walk[..11].to_vec()), 6);
    assert_eq!(call(&mut [], &mut counts, &mut walk[..11].to_vec()), 6);
    assert_eq!(call(&mut [5], &mut counts, &mut walk.to_vec()), 0);

    let explained = |roots: &[u32], walk| explain_compaction_lent(&six(), roots, walk);
    let sentence =
        "the scratch walk: its length is 11; it must be at least 12, two for each object in use";
    assert_eq!(explained(&[5], 11).to_string(), sentence);
    assert_eq!(explained(&[5], 11).refusal(), Some(Refusal::ShortScratch));
    assert_eq!(explained(&[6], 11).refusal(), Some(Refusal::NoTable));
    assert_eq!(explained(&[5], 12).refusal(), None);

    let (mut data, mut objects, mut links, _) = six().into_parts();
    let mut counts = [18, 6, 12];
    let mut store = StoreMut::new(&mut data, &mut objects, &mut links, &mut counts);
    let answer = compact(&mut store, &mut [5], &mut Scratch::new());
    assert_eq!(answer, Err(Refusal::Unsound));
    let explanation = explain_compaction(&store, &[6]);
    assert_eq!(explanation.refusal(), Some(Refusal::Unsound));
    assert!(explanation.to_string().starts_with("the count of links"));
}

/// With no scratch to start with, and with that of another call.
#[test]
fn scratch_serves_any_store() {
    let mut scratch = Scratch::new();
    for roots in [[5], [0]] {
        let mut store = six();
        let Freed { room, moved } = compact(&mut store, &mut roots.to_vec(), &mut scratch).unwrap();
        let alone = six().compact(&roots).unwrap();
        assert_eq!((room, moved), (alone.freed, alone.moved));
        let (mut large, _) = w7();
        split(&mut large, 0, First, &mut scratch).unwrap();
    }
}

/// A pair reads as before, with its device under the new number.
#[test]
fn pairs_stay() {
    let objects: [&[u16]; 6] = [
        &[0xFFFF],
        &[1, 0, 0x44, 0, 1, 0],
        &[1, 1, 10],
        &[],
        &[1, 70, 5, 0],
        &[0xD],
    ];
    let mut store = store(&objects, &[[1, 2, 2], [1, 10, 4], [4, 6, 5]]);
    let read = |store: &Store, table| read_pair(store, table, 10, 70).unwrap().unwrap().first;
    let before = read(&store, 1);
    assert_eq!(before.x_advance_device, Some(5));
    assert_eq!(store.compact(&[1]).unwrap().roots, [0]);
    let after = Values {
        x_advance_device: Some(3),
        ..before
    };
    assert_eq!(read(&store, 0), after);
}

/// Attachments do, with both anchors under their new numbers.
#[test]
fn attachments_stay() {
    let (mut store, _) = cut_marks();
    let mut tables = split_marks(&mut store, 0, First, &mut Scratch::new()).unwrap();
    tables.insert(0, 0);
    let attached = |store: &Store, tables: &[u32]| {
        [10, 20, 30, 40].map(|mark| {
            let mut tables = tables.iter();
            let found = tables.find_map(|&table| read_mark(store, table, mark, 60).unwrap());
            found.unwrap()
        })
    };
    let before = attached(&store, &tables);
    // The old mark coverage, mark array and base array go: objects 1, 3 and 4, all before the anchors.
    let compacted = store.compact(&tables).unwrap();
    assert_eq!(compacted.freed.objects, 3);
    let renumbered = before.map(|it| Attachment {
        mark_anchor: it.mark_anchor - 3,
        base_anchor: it.base_anchor - 3,
    });
    assert_eq!(attached(&store, &compacted.roots), renumbered);
}

/// And a lookup, applied, as a list that is a root leads to it.
#[test]
fn lookups_stay() {
    let (mut store, _) = listed();
    split_in_lookups(&mut store, LIST, 0, First, &mut Scratch::new()).unwrap();
    let lookup = |store: &Store, list| store.view().child(list, 4).unwrap();
    let (old, old_lookup) = (store.clone(), lookup(&store, LIST));
    // The coverage goes, the lookup as it was, and object 8, which leads to the new one.
    let compacted = store.compact(&[LIST]).unwrap();
    assert_eq!(compacted.freed.objects, 3);
    let new_lookup = lookup(&store, compacted.roots[0]);
    for (first, second) in [(10, 70), (20, 0), (30, 7_499), (30, 7_500), (40, 1)] {
        let before = apply_lookup(&old, old_lookup, first, second);
        assert_eq!(apply_lookup(&store, new_lookup, first, second), before);
    }
}

/// A split that had no room because of what nothing needs has it afterwards, and exactly.
#[test]
fn freed_room_is_used_by_the_next_split() {
    let (mut store, enough) = w7();
    assert_eq!(enough, room(26, 3, 1));
    for _ in 0..3 {
        store.add_object(&[0; 9]).unwrap();
    }
    store.add_order_link(6, 7).unwrap();
    store.reserve(Room::default());
    let (mut scratch, mut list) = (Scratch::new(), [77]);
    let answer = split_into(&mut store, 0, First, &mut scratch, &mut list);
    assert_eq!(answer, Err(Refusal::NoRoom));

    let freed = store.compact(&[0]).unwrap().freed;
    assert_eq!(freed, room(27, 3, 1));
    assert_eq!(store.room(), freed);
    let answer = split_into(&mut store, 0, First, &mut scratch, &mut list);
    assert_eq!((answer, list), (Ok(1), [5]));
    assert_eq!(store.room(), room(1, 0, 0));
    let (mut fresh, _) = w7();
    split(&mut fresh, 0, First, &mut scratch).unwrap();
    assert_eq!(contents(&store), contents(&fresh));
}

/// At the maxima: as many objects as there may be, of which the first goes and the last is not reached.
#[test]
fn many_objects() {
    let most = Room::MOST.objects as u32;
    let mut store = format1(&[100]);
    while store.view().counts()[1] < most {
        store.add_object(&[1]).unwrap();
    }
    let roots: Vec<u32> = (1..most - 1).collect();
    let compacted = store.compact(&roots).unwrap();
    assert_eq!(compacted.freed.objects, 2);
    assert_eq!(compacted.freed.data, 12 + 1);
    assert!(compacted.roots.iter().copied().eq(0..most - 2));
    assert_eq!(compacted.moved, store.view().data().len());
}
