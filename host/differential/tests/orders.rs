//! Order-only links by hand, through the archive and the model: which rows are sound, that nothing follows, asks,
//! counts or copies one, and what becomes of them.

use differential::{
    by_hand::{
        format1, format1_records, marks, push_anchor, push_list, push_lookup, BASE_ARRAY,
        MARK_ARRAY,
    },
    check::{
        again, all_agree, as_the_oracle, entered, frame, lookups_agree, marks_agree,
        marks_as_the_oracle, Split,
    },
    edit,
    generate::Listed,
    lend::{self, Need},
    Archive, Call,
    Edition::First,
    InLookups, Marks, Random, Subject, Tally,
};
use oracle::{link, Store};

const TABLE: u32 = 0;

/// W7: sets 2 to 4 lead to objects 5 to 7, and the third one is cut off.
fn w7() -> Store {
    format1(&[10, 20, 30], &[30_000; 3])
}

fn exactly(store: &Store) -> Call<u32> {
    lend::exactly(store, TABLE, First, &mut Random::new(0))
}

/// The answer to a split, which is the model's.
fn answer(store: &Store) -> u32 {
    let mut call = exactly(store);
    assert_eq!(all_agree(&Archive, &call), Ok(()));
    Archive.split_pairpos(&mut call)
}

/// The split, which is the model's and the oracle's, of which no link is lost.
fn split(store: &Store) -> Split {
    let call = exactly(store);
    assert_eq!(all_agree(&Archive, &call), Ok(()));
    let split = Split::by(&Archive, &call);
    assert_eq!(as_the_oracle(&split, &mut Tally::default()), Ok(()));
    assert_eq!(frame(&split), Ok(()));
    assert_eq!(again(&Archive, &split), Ok(()));
    split
}

fn mark_split(store: &Store) -> Split {
    let call = lend::marks_exactly(store, TABLE, First, &mut Random::new(0));
    assert_eq!(marks_agree(&Archive, &call), Ok(()));
    let split = Split::by(&Marks(&Archive), &call);
    assert_eq!(marks_as_the_oracle(&split, &mut Tally::default()), Ok(()));
    assert_eq!(frame(&split), Ok(()));
    assert_eq!(again(&Marks(&Archive), &split), Ok(()));
    split
}

/// The split, which is the model's.
fn split_in_lookups(store: &Store, list: u32) -> Split {
    let case = Listed {
        store: store.clone(),
        list,
        table: TABLE,
    };
    let call = lend::in_lookups_exactly(&case, First, &mut Random::new(0));
    assert_eq!(lookups_agree(&Archive, &call), Ok(()));
    let split = Split::by(&InLookups(&Archive), &call);
    assert_eq!(split.answer, 0);
    split
}

/// The children of an object's order-only links, in order.
fn orders(store: &Store, parent: u32) -> Vec<u32> {
    let rows = store.links_in_use().iter();
    let orders = rows.filter(|row| row[0] == parent && !link::is_offset(row));
    orders.map(|row| row[3]).collect()
}

/// The answer to a store of W7 with these rows behind the table's own, which are four, and before the sets'.
fn with_rows(rows: &[link::Row]) -> u32 {
    let mut store = w7();
    let place = 4 * link::NUMBERS;
    store.links.splice(place..place, rows.concat());
    store.counts[2] += rows.len() as u32;
    answer(&store)
}

#[test]
fn rows_that_are_sound() {
    let order = link::order_only;
    let sound: &[&[link::Row]] = &[
        &[],
        &[order(0, 0)],
        &[order(0, 4)],
        &[order(0, 7)],
        &[order(0, 0), order(0, 1), order(0, 7)],
        &[order(0, 1), order(1, 0)],
        &[order(0, 1), [1, 0, 2, 7, 0], order(1, 0), order(1, 1)],
    ];
    for rows in sound {
        assert_eq!(with_rows(rows), 0, "{rows:?}");
    }
}

#[test]
fn rows_that_are_not_sound() {
    let order = link::order_only;
    let unsound: &[&[link::Row]] = &[
        // Another kind.
        &[[0, 0, 0, 1, 2]],
        &[[0, 0, 0, 1, u32::MAX]],
        // Another shape.
        &[[0, 1, 0, 1, 1]],
        &[[0, 2, 0, 1, 1]],
        &[[0, 0, 1, 1, 1]],
        &[[0, 0, 2, 1, 1]],
        &[[0, 14, 2, 1, 1]],
        &[[1, 0, 0, 1, 0]],
        // No object.
        &[order(0, 8)],
        &[order(0, u32::MAX)],
        // Two offsets of one position: those before have children 1 to 4.
        &[link::offset(0, 14, 4)],
        &[link::offset(0, 14, 5)],
        &[link::offset(1, 0, 2), link::offset(1, 0, 3)],
        // Out of order.
        &[order(0, 1), order(0, 1)],
        &[order(0, 2), order(0, 1)],
        &[order(1, 0), order(0, 0)],
        &[order(1, 0), link::offset(1, 0, 2)],
        &[order(3, 0)],
    ];
    for rows in unsound {
        assert_eq!(with_rows(rows), 1, "{rows:?}");
    }
    let mut behind_all = w7();
    behind_all.links.extend(order(8, 0));
    behind_all.counts[2] += 1;
    assert_eq!(answer(&behind_all), 1);
}

/// Four rows of five numbers are as long as five of four.
#[test]
fn a_length_counts_whole_rows_of_five() {
    let rows = w7().counts[2] as usize;
    let lent = |numbers: usize| {
        let mut store = w7();
        store.links.resize(numbers, 7);
        answer(&store)
    };
    assert_eq!(lent(5 * rows), 0);
    assert_eq!(lent(5 * rows - 1), 1);
    assert_eq!(lent(4 * rows), 1);
    // One cut needs one link.
    let mut call = exactly(&w7());
    for (numbers, answer) in [(5 * rows + 5, 0), (5 * rows + 4, 8), (5 * rows, 8)] {
        call.store.links.resize(numbers, 7);
        assert_eq!(all_agree(&Archive, &call), Ok(()));
        assert_eq!(Archive.split_pairpos(&mut call.clone()), answer);
    }
}

/// From the table and to it, along a ring and to itself: no way back, no link at no slot, no size.
#[test]
fn an_order_only_link_is_not_followed() {
    let mut store = format1(&[10, 20], &[30_000; 2]);
    let large = store.push_object(&[0; 65_000]);
    for (parent, child) in [(0, 0), (0, 2), (2, 0), (2, large), (3, large), (1, 1)] {
        store.push_order_link(parent, child);
    }
    assert_eq!(split(&store).places, []);
    edit::link(&mut store, 3, 4, large as u32);
    assert_eq!(split(&store).places, [1]);
}

/// A coverage and a set that are linked by order alone are not linked: 4, and an empty slot.
#[test]
fn an_order_only_link_is_no_offset() {
    let mut store = w7();
    edit::unlink(&mut store, TABLE, 14);
    edit::order(&mut store, TABLE, 4);
    assert_eq!(split(&store).places, []);
    edit::unlink(&mut store, TABLE, 2);
    edit::order(&mut store, TABLE, 1);
    assert_eq!(answer(&store), 4);
}

/// W7 with order-only links of the table, of its coverage, of the set that is cut off, and of another object.
fn ordered() -> Store {
    let mut store = w7();
    for (parent, child) in [(0, 0), (0, 1), (0, 4), (1, 0), (4, 0), (4, 4), (7, 1)] {
        store.push_order_link(parent, child);
    }
    store
}

/// The table is object 0, the new ones are 8 and its coverage, and 10, the kept coverage.
#[test]
fn order_only_links_stay_where_they_are() {
    let split = split(&ordered());
    assert_eq!(split.new_tables(), [8]);
    let (row, order) = (link::offset, link::order_only);
    let rows = [
        vec![row(0, 2, 10), row(0, 10, 2), row(0, 12, 3)],
        vec![order(0, 0), order(0, 1), order(0, 4)],
        vec![order(1, 0), row(2, 0, 5), row(3, 0, 6), row(4, 0, 7)],
        vec![order(4, 0), order(4, 4), order(7, 1)],
        vec![row(8, 2, 9), row(8, 10, 4)],
    ];
    assert_eq!(split.after.store.links_in_use(), rows.concat());
}

/// A split in which an order-only link has become another.
fn with_another(split: &Split, old: [u32; 2], new: [u32; 2]) -> Split {
    let mut split = split.clone();
    let [old, new] = [old, new].map(|[parent, child]| link::order_only(parent, child));
    let rows = split.after.store.links.as_chunks_mut().0;
    *rows.iter_mut().find(|row| **row == old).unwrap() = new;
    let in_use = split.after.store.counts[2] as usize;
    rows[..in_use].sort_unstable_by_key(link::rank);
    split
}

/// A link of the table moved to the new table, to its coverage, to the kept coverage and to another object, and
/// one of another that leads elsewhere.
#[test]
fn a_link_that_does_not_stay_is_found() {
    let split = split(&ordered());
    let wrong = [
        ([0, 4], [8, 4]),
        ([0, 4], [9, 4]),
        ([0, 4], [10, 4]),
        ([0, 4], [2, 4]),
        ([0, 1], [0, 10]),
        ([4, 0], [4, 1]),
        ([7, 1], [7, 2]),
    ];
    for (old, new) in wrong {
        let found = frame(&with_another(&split, old, new)).unwrap_err();
        let is_of_links = found.starts_with("links") || found.ends_with("of a new object");
        assert!(is_of_links, "{found}");
    }
}

/// New arrays have the anchors of the old ones, and not their order-only links: the room for 4K links and
/// those of both arrays is the same.
#[test]
fn arrays_are_copied_without_their_order_only_links() {
    let mut store = marks(2, &[1, 0], 1);
    for position in [4, 8] {
        push_anchor(&mut store, MARK_ARRAY, position, 40_000);
    }
    let room = Need::of_marks(&store, TABLE, First).room;
    let parts = [TABLE, MARK_ARRAY, BASE_ARRAY, 5].map(|part| part as usize);
    for parent in parts {
        for child in parts {
            store.push_order_link(parent, child);
        }
    }
    let split = mark_split(&store);
    assert_eq!(split.places, [1]);
    assert_eq!(Need::of_marks(&store, TABLE, First).room, room);
    let after = &split.after.store;
    for object in 0..after.counts[1] {
        let children: &[u32] = match object {
            TABLE | MARK_ARRAY | BASE_ARRAY | 5 => &[TABLE, MARK_ARRAY, BASE_ARRAY, 5],
            _ => &[],
        };
        assert_eq!(orders(after, object), children, "{object}");
    }
}

/// Lookups 5 and 6 are written anew as 13 and 12, since the list leads to 6 first; 7 is not of pairs.
fn redirected() -> Split {
    let mut store = format1_records(&[10, 20, 30], &[7_500; 3]);
    let [first, second] = [(); 2].map(|()| push_lookup(&mut store, [2, 0], &[Some(TABLE)]));
    let other = push_lookup(&mut store, [4, 0], &[Some(TABLE)]);
    let list = push_list(&mut store, &[second, first, other].map(Some));
    assert_eq!([first, second, other, list], [5, 6, 7, 8]);
    for parent in [TABLE, 1, first, second, other, list] {
        for child in [TABLE, 3, first, second, other, list] {
            store.push_order_link(parent as usize, child as usize);
        }
    }
    split_in_lookups(&store, list)
}

#[test]
fn order_only_links_to_lookups_are_redirected() {
    let split = redirected();
    assert_eq!(entered(&Archive, &split, &mut Tally::default()), Ok(()));
    let after = &split.after.store;
    assert_eq!(after.counts[1], 14);
    for object in 0..after.counts[1] {
        let children: &[u32] = match object {
            0 | 1 | 5..=8 => &[0, 3, 7, 8, 12, 13],
            _ => &[],
        };
        assert_eq!(orders(after, object), children, "{object}");
    }
}

/// A link to the old lookup, one redirected that was to another, one of the new lookup; and two out of order.
#[test]
fn a_link_that_is_not_redirected_is_found() {
    let split = redirected();
    let is_found = |split: &Split| entered(&Archive, split, &mut Tally::default()).is_err();
    for (old, new) in [([1, 12], [1, 6]), ([1, 7], [1, 11]), ([5, 0], [13, 0])] {
        assert!(is_found(&with_another(&split, old, new)), "{new:?}");
    }
    let mut out_of_order = split.clone();
    let rows = out_of_order.after.store.links.as_chunks_mut().0;
    let first = rows.iter().position(|row| *row == link::order_only(1, 12));
    rows.swap(first.unwrap(), first.unwrap() + 1);
    assert!(!is_found(&split) && is_found(&out_of_order));
}

/// An object is placed after each of 20,000 lookups, all of which are written anew, the last of them first.
#[test]
fn very_many_links_of_one_object_are_redirected() {
    let count = 20_000;
    let mut store = format1_records(&[10, 20, 30], &[7_500; 3]);
    let mut rows = store.links_in_use().to_vec();
    let mut push = |bytes: &[u8]| edit::add(&mut store, bytes);
    let lookups: Vec<u32> = (0..count)
        .map(|_| push(&[0, 2, 0, 0, 0, 1, 0, 0]))
        .collect();
    let length = 2 + 2 * lookups.len();
    let mut bytes = (count as u16).to_be_bytes().to_vec();
    bytes.resize(length, 0);
    let list = push(&bytes);
    let placed = push(&[]);
    for (slot, &lookup) in lookups.iter().rev().enumerate() {
        rows.push(link::offset(lookup, 6, TABLE));
        rows.push(link::offset(list, 2 + 2 * slot as u32, lookup));
        rows.push(link::order_only(placed, lookup));
    }
    rows.sort_unstable_by_key(link::rank);
    store.counts[2] = rows.len() as u32;
    store.links = rows.into_flattened();
    let split = split_in_lookups(&store, list);
    let first_new = store.counts[1] + 3;
    let new = first_new..first_new + count;
    assert_eq!(
        orders(&split.after.store, placed),
        new.collect::<Vec<u32>>()
    );
}
