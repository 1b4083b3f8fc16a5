//! Lookups: what they list, what they say of two glyphs, and new tables entered in them.

mod common;

use common::{bytes, format1_records, listed, store, LIST, LOOKUP};
use splitter::{
    apply_lookup,
    explain::{Call, Lent},
    explain_in_lookups, split, split_in_lookups, split_in_lookups_into,
    Edition::First,
    Kind, Lookup, Refusal, Scratch, Store, StoreMut,
};

/// Tables 2 and 3 of glyph 10, with one set each: an advance of 5 before glyph 70 and 6 before 71, and one of
/// 7 before 71 and 8 before 72. Object 6 is of another format, and object 7 is refused.
fn tables() -> Store {
    let table: &[u16] = &[1, 0, 4, 0, 1, 0];
    store(
        &[
            &[1, 1, 10],
            &[0],
            table,
            table,
            &[2, 70, 5, 71, 6],
            &[2, 71, 7, 72, 8],
            &[3],
            &[1, 0, 4, 0, 0],
        ],
        &[[2, 2, 0], [2, 10, 4], [3, 2, 0], [3, 10, 5]],
    )
}

/// Adds a lookup of type, flag, count and more words whose slots lead to these, from the first on.
fn add_lookup(store: &mut Store, words: &[u16], slots: &[Option<u32>]) -> u32 {
    let lookup = store.add_object(&bytes(words)).unwrap();
    for (slot, child) in (0..).zip(slots) {
        if let Some(child) = *child {
            store.add_link(lookup, 6 + 2 * slot, child).unwrap();
        }
    }
    lookup
}

#[test]
fn the_first_subtable_with_a_pair_decides() {
    let orders = [
        ([Some(2), Some(3)], [Some(5), Some(6), Some(8), None]),
        ([Some(3), Some(2)], [Some(5), Some(7), Some(8), None]),
        ([None, Some(3)], [None, Some(7), Some(8), None]),
    ];
    for (tables_in_order, expected) in orders {
        let mut store = tables();
        let [first, second] = tables_in_order;
        let slots = [first, Some(6), Some(7), None, second];
        let words = [2, 0x0010, 5, 0, 0, 0, 0, 0, 9];
        let lookup = add_lookup(&mut store, &words, &slots);
        let read = |second| apply_lookup(&store, lookup, 10, second).unwrap();
        let advances = [70, 71, 72, 73].map(|second| read(second).map(|it| it.first.x_advance));
        assert_eq!(advances, expected);
        let listed = Lookup::read(&store, lookup).unwrap();
        assert_eq!((listed.lookup_type, listed.flag), (2, 0x0010));
        assert_eq!(listed.slots, slots);
        assert_eq!(listed.subtables().count(), 3 + usize::from(first.is_some()));
    }
}

/// Subtables of another type are not read.
#[test]
fn another_type_has_no_pairs() {
    for (lookup_type, pairs) in [(2, true), (4, false), (0x0102, false)] {
        let mut store = tables();
        let lookup = add_lookup(&mut store, &[lookup_type, 0, 1, 0], &[Some(2)]);
        let pair = apply_lookup(&store, lookup, 10, 70).unwrap();
        assert_eq!(pair.is_some(), pairs);
    }
}

#[test]
fn what_is_no_lookup() {
    let refusal = |words: &[u16], position: Option<u32>| {
        let mut store = tables();
        let lookup = store.add_object(&bytes(words)).unwrap();
        if let Some(position) = position {
            store.add_link(lookup, position, 2).unwrap();
        }
        let applied = apply_lookup(&store, lookup, 10, 70).err();
        assert_eq!(Lookup::read(&store, lookup).err(), applied);
        applied
    };
    assert_eq!(refusal(&[2, 0, 2, 0, 0], Some(8)), None);
    assert_eq!(refusal(&[2, 0x0010, 1, 0, 0], Some(6)), None);
    let bad = Some(Refusal::BadList);
    for words in [
        &[][..],
        &[2, 0],
        &[2, 0, 1],
        &[2, 0, 1, 0, 0],
        &[2, 0x0010, 1, 0],
        &[2, 0x0020, 1, 0, 0],
    ] {
        assert_eq!(refusal(words, None), bad, "{words:?}");
    }
    for position in [0, 2, 4, 5, 7, 8] {
        assert_eq!(refusal(&[2, 0x0010, 1, 0, 0], Some(position)), bad);
    }
    let store = tables();
    assert_eq!(apply_lookup(&store, 99, 10, 70), Err(Refusal::NoTable));
    let (data, objects, links, mut counts) = store.into_parts();
    counts[0] += 1;
    let unsound = splitter::StoreRef::new(&data, &objects, &links, &counts);
    assert_eq!(apply_lookup(unsound, 1, 10, 70), Err(Refusal::Unsound));
}

/// What is written, to the last byte and link: the split's, and then lookup 12.
#[test]
fn new_tables_are_entered() {
    let (mut store, room) = listed();
    let old = store.clone();
    let before = store.view().counts();
    let new_tables = split_in_lookups(&mut store, LIST, 0, First, &mut Scratch::new());
    assert_eq!(new_tables, Ok(vec![9]));

    let view = store.view();
    let added = [room.data, room.objects, room.links].map(|count| count as u32);
    let after = [0, 1, 2].map(|place| before[place] + added[place]);
    assert_eq!(view.counts(), after);
    let words: [&[u16]; 4] = [
        &[1, 0, 4, 0, 1, 0],
        &[1, 1, 30],
        &[1, 2, 10, 20],
        &[2, 0x0010, 6, 0, 0, 0, 0, 0, 0, 0x0ABC],
    ];
    assert_eq!(view.data()[before[0] as usize..], bytes(&words.concat()));
    assert_eq!(view.child(LIST, 4), Some(12));
    assert_eq!(view.child(8, 2), Some(12));
    let listed = Lookup::read(&store, 12).unwrap();
    let slots = [Some(0), Some(9), None, Some(7), Some(0), Some(9)];
    assert_eq!(listed.slots, slots);
    // The old lookup keeps its bytes and links, and all else is as the split leaves it.
    assert_eq!(view.object(LOOKUP), old.view().object(LOOKUP));
    assert!(view.offsets_of(LOOKUP).eq(old.view().offsets_of(LOOKUP)));
    let mut plain = old.clone();
    assert_eq!(
        split(&mut plain, 0, First, &mut Scratch::new()),
        Ok(vec![9])
    );
    for object in 0..plain.view().counts()[1] {
        assert_eq!(view.object(object), plain.view().object(object));
    }
    for glyphs in [[10, 3], [20, 7_499], [30, 0], [30, 7_500], [40, 0]] {
        let [first, second] = glyphs;
        let before = apply_lookup(&old, LOOKUP, first, second).unwrap();
        assert_eq!(apply_lookup(&store, 12, first, second), Ok(before));
        assert_eq!(before.is_some(), first < 40 && second < 7_500);
    }
}

/// Splitting again adds nothing, and so does a table that fits.
#[test]
fn nothing_to_enter() {
    let (mut store, _) = listed();
    let mut scratch = Scratch::new();
    split_in_lookups(&mut store, LIST, 0, First, &mut scratch).unwrap();
    let split = store.clone();
    for table in [0, 9] {
        assert_eq!(
            split_in_lookups(&mut store, LIST, table, First, &mut scratch),
            Ok(vec![])
        );
    }
    assert_eq!(store, split);
}

/// Room that is exactly enough, one short of each, and a list that is too short.
#[test]
fn room_at_its_edge() {
    let (store, room) = listed();
    let mut scratch = Scratch::new();
    let mut split = |room, entries: usize| {
        let mut store = store.clone();
        store.reserve(room);
        let before = store.clone();
        let mut list = [77; 2];
        let answer = split_in_lookups_into(
            &mut store,
            LIST,
            0,
            First,
            &mut scratch,
            &mut list[..entries],
        );
        assert_eq!(store == before && list == [77; 2], answer.is_err());
        (answer, list)
    };
    assert_eq!(split(room, 2), (Ok(1), [9, 77]));
    assert_eq!(split(room, 0).0, Err(Refusal::NoRoom));
    let mut short = [room; 3];
    short[0].data -= 1;
    short[1].objects -= 1;
    short[2].links -= 1;
    for room in short {
        assert_eq!(split(room, 2).0, Err(Refusal::NoRoom));
    }
}

/// Table 0, which is cut once, and a list of one lookup of these words and links.
fn with(words: &[u16], links: &[[u32; 2]]) -> (Store, u32) {
    let mut store = format1_records(&[7_500; 3]);
    let list = store.add_object(&bytes(&[1, 0])).unwrap();
    let lookup = store.add_object(&bytes(words)).unwrap();
    store.add_link(list, 2, lookup).unwrap();
    for &[position, child] in links {
        store.add_link(lookup, position, child).unwrap();
    }
    (store, list)
}

/// The words of a lookup that can list no more.
fn full() -> Vec<u16> {
    let mut words = vec![2, 0, 65_535];
    words.resize(3 + 65_535, 0);
    words
}

/// What is at fault: an object, a link row or a count, what stands there and what should.
#[test]
fn faults() {
    let (whole, _) = listed();
    let said =
        |store: &Store, list, table| explain_in_lookups(store, list, table, First).to_string();
    assert_eq!(said(&whole, LIST, 0), "nothing is at fault");
    assert_eq!(
        said(&whole, 99, 0),
        "the number of the lookup list is 99; it must be below 9, how many objects are in use"
    );
    assert_eq!(
        said(&whole, LIST, 1),
        "lookup list, object 5: no lookup of it names table 1; one of type 2 must"
    );
    assert_eq!(
        said(&whole, 7, 0),
        "lookup list, object 7: its length is 2; it must be 8, by its count of lookups"
    );
    let full = full();
    for (words, links, sentence) in [
        (
            &[4, 0, 1, 0][..],
            &[[6, 0]][..],
            "its type, at byte 0, is 4; it must be 2, to list a table for pairs",
        ),
        (&[2], &[], "its length is 2; it must be at least 6, to have a header"),
        (
            &[2, 0, 1, 0, 0],
            &[[6, 0]],
            "its length is 10; it must be 8, by its count of subtables",
        ),
        (
            &[2, 0x0010, 1, 0],
            &[[6, 0]],
            "its length is 8; it must be 10, by its count of subtables and with a mark filtering set",
        ),
        (
            &full,
            &[[6, 0]],
            "the number of subtables that it would have is 65536; it must be at most 65535, with the new \
             tables behind each listing of the table",
        ),
    ] {
        let (store, list) = with(words, links);
        let expected = format!("lookup, object {}: {sentence}", list + 1);
        assert_eq!(said(&store, list, 0), expected);
    }
    let (store, list) = with(&[2, 0x0010, 1, 0, 0], &[[6, 0], [8, 0]]);
    let row = store.view().link_rows().len() - 1;
    let lookup = list + 1;
    assert_eq!(
        said(&store, list, 0),
        format!(
            "link row {row} of lookup, object {lookup} stands at position 8, which is no slot; it leads to \
             object 0"
        )
    );
}

/// Room for what the split adds and for the lookups together, one short of each. The call is one of pairs,
/// whatever kind is asked.
#[test]
fn short_room_is_explained() {
    let (store, room) = listed();
    let explain = |kind: Kind, room, list| {
        let mut store = store.clone();
        store.reserve(room);
        let lent = Lent {
            list,
            ..Lent::ENOUGH
        };
        let call = Call::InLookups {
            list: LIST,
            edition: First.number(),
            lent,
        };
        kind.explain_call(call, &store, 0)
    };
    for kind in [Kind::Pairs, Kind::Marks] {
        assert_eq!(explain(kind, room, 1).number(), 0);
        assert_eq!(explain(kind, room, 0).number(), 8);
        let mut short = [room; 3];
        short[0].data -= 1;
        short[1].objects -= 1;
        short[2].links -= 1;
        let counts = [room.data, room.objects, room.links];
        let names = ["data bytes", "objects", "links"];
        for ((room, name), needed) in short.into_iter().zip(names).zip(counts) {
            let explanation = explain(kind, room, 1);
            assert_eq!(explanation.refusal(), Some(Refusal::NoRoom));
            let sentence = format!(
                "the room for new {name} is {}; it must be at least {needed}, for what the split adds",
                needed - 1
            );
            assert_eq!(explanation.to_string(), sentence);
        }
    }
}

#[test]
fn refusals() {
    let refused = |store: &Store, list, table, refusal| {
        let mut same = store.clone();
        let answer = split_in_lookups(&mut same, list, table, First, &mut Scratch::new());
        assert_eq!(answer, Err(refusal));
        assert_eq!(same, *store);
        let explanation = explain_in_lookups(store, list, table, First);
        assert_eq!(explanation.refusal(), Some(refusal));
    };
    let (whole, _) = listed();
    refused(&whole, 99, 0, Refusal::NoTable);
    refused(&whole, LIST, 99, Refusal::NoTable);
    // The lookup as a list, a table that it does not name, and a list that leads to no lookup.
    refused(&whole, LOOKUP, 0, Refusal::BadList);
    refused(&whole, LIST, 1, Refusal::BadList);
    refused(&whole, 8, 0, Refusal::BadList);
    // A table of another format that the lookup names is nothing to split.
    let answer = split_in_lookups(&mut whole.clone(), LIST, 7, First, &mut Scratch::new());
    assert_eq!(answer, Ok(vec![]));
    for (words, links) in [
        (&[4, 0, 1, 0][..], &[[6, 0]][..]),
        (&[2, 0, 1, 0], &[]),
        (&[2, 0, 1, 0, 0], &[[6, 0]]),
        (&[2, 0x0010, 1, 0], &[[6, 0]]),
        (&[2, 0x0010, 1, 0, 0], &[[6, 0], [8, 0]]),
    ] {
        let (store, list) = with(words, links);
        refused(&store, list, 0, Refusal::BadList);
    }
    let (store, list) = with(&full(), &[[6, 0]]);
    refused(&store, list, 0, Refusal::ManySubtables);
}

/// Buffers of the host's own.
#[test]
fn lent_buffers() {
    let (mut store, room) = listed();
    store.reserve(room);
    let (mut data, mut objects, mut links, mut counts) = store.into_parts();
    let mut new_tables = [0; 1];
    let lent = StoreMut::new(&mut data, &mut objects, &mut links, &mut counts);
    let mut scratch = Scratch::new();
    let answer = split_in_lookups_into(lent, LIST, 0, First, &mut scratch, &mut new_tables);
    assert_eq!((answer, new_tables), (Ok(1), [9]));
    counts[0] += 1;
    let lent = StoreMut::new(&mut data, &mut objects, &mut links, &mut counts);
    let answer = split_in_lookups_into(lent, LIST, 0, First, &mut scratch, &mut new_tables);
    assert_eq!(answer, Err(Refusal::Unsound));
}
