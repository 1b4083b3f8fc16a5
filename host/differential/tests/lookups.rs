//! New tables entered in lookups by hand, through the archive and the model.

use differential::{
    by_hand::{format1_records, push_list, push_lookup, FILTER_SET},
    check::{again, applied_stay, entered, lookups_agree, Split},
    compare::Objects,
    edit,
    generate::Listed,
    lend::{self, Need},
    model::{lookups::applied::Subtables, numbers::bytes},
    Archive, Call,
    Edition::First,
    InLookups, LookupSubject, Pair, Random, Subject, Tally,
};
use oracle::{link, Store};

const TABLE: u32 = 0;

/// A flag without a filter, and one with it.
const PLAIN: u16 = 0xFFEF;
const FILTER: u16 = 0x0010;

/// A type that is not that of pairs.
const OTHER: u16 = 4;

/// A table of glyphs 10, 20 and 30 with sets of 30,002 bytes, objects 2 to 4, that is cut at 2.
///
/// Its new table has 12 bytes and a coverage of 6, and the kept one's coverage has 8.
fn cut() -> Store {
    format1_records(&[10, 20, 30], &[7_500; 3])
}

/// A table of glyph 10 that says something of second glyphs 0 to 3, and its coverage and set.
fn push_other(store: &mut Store) -> u32 {
    let other = store.push_object(&bytes([1, 0, 4, 0, 2, 0, 0]));
    let coverage = store.push_object(&bytes([1, 2, 10, 30]));
    let set = store.push_object(&bytes([2, 1, 500, 9_000, 501]));
    store.push_link(other, 2, coverage);
    store.push_link(other, 10, set);
    store.push_link(other, 12, set);
    other as u32
}

fn call(store: &Store, list: u32) -> Call<u32> {
    let case = Listed {
        store: store.clone(),
        list,
        table: TABLE,
    };
    lend::in_lookups_exactly(&case, First, &mut Random::new(0))
}

/// The split, which is the model's and changes nothing that it must not.
fn split(store: &Store, list: u32) -> Split {
    let call = call(store, list);
    assert_eq!(lookups_agree(&Archive, &call), Ok(()));
    let split = Split::by(&InLookups(&Archive), &call);
    assert_eq!(split.answer, 0);
    let mut tally = Tally::default();
    assert_eq!(entered(&Archive, &split, &mut tally), Ok(()));
    assert_eq!(again(&InLookups(&Archive), &split), Ok(()));
    let mut random = Random::new(0);
    assert_eq!(applied_stay(&split, &mut random, &mut tally), Ok(()));
    split
}

fn answer(call: &Call<u32>) -> u32 {
    assert_eq!(lookups_agree(&Archive, call), Ok(()));
    let split = Split::by(&InLookups(&Archive), call);
    assert_eq!(entered(&Archive, &split, &mut Tally::default()), Ok(()));
    split.answer
}

/// Lookup 5 lists the table twice and the other between, lookup 6 names lookup 5 and itself. The list leads
/// to 6 first, to 5 twice, and has an empty slot. Object 8 leads to both.
fn two_lookups() -> (Store, u32) {
    let mut store = cut();
    let first = push_lookup(
        &mut store,
        [2, FILTER],
        &[Some(TABLE), Some(1), None, Some(TABLE)],
    );
    let second = push_lookup(&mut store, [2, PLAIN], &[Some(5), Some(TABLE), Some(6)]);
    let slots = [second, first, first].map(Some);
    let list = push_list(&mut store, &[&slots[..], &[None]].concat());
    let elsewhere = store.push_object(&[0; 5]);
    store.push_link(elsewhere, 0, first as usize);
    store.push_link(elsewhere, 3, second as usize);
    assert_eq!([first, second, list, elsewhere as u32], [5, 6, 7, 8]);
    (store, list)
}

/// The split's objects are 9, the new table, its coverage and the kept one's; lookup 12 is for 6, and 13 for 5.
#[test]
fn all_that_is_written() {
    let (store, list) = two_lookups();
    let split = split(&store, list);
    assert_eq!(split.new_tables(), [9]);
    let after = &split.after.store;
    assert_eq!(after.counts[1], 14);
    let new_words: [&[u16]; 5] = [
        &[1, 0, 4, 0, 1, 0],
        &[1, 1, 30],
        &[1, 2, 10, 20],
        &[2, PLAIN, 4, 0, 0, 0, 0],
        &[2, FILTER, 6, 0, 0, 0, 0, 0, 0, FILTER_SET],
    ];
    let new_data = &after.data_in_use()[store.data.len()..];
    assert_eq!(new_data, bytes(new_words.concat()));

    let row = link::offset;
    let rows = [
        vec![row(0, 2, 11), row(0, 10, 2), row(0, 12, 3)],
        vec![row(5, 6, 0), row(5, 8, 1), row(5, 12, 0)],
        vec![row(6, 6, 13), row(6, 8, 0), row(6, 10, 12)],
        vec![row(7, 2, 12), row(7, 4, 13), row(7, 6, 13)],
        vec![row(8, 0, 13), row(8, 3, 12)],
        vec![row(9, 2, 10), row(9, 10, 4)],
        vec![
            row(12, 6, 13),
            row(12, 8, 0),
            row(12, 10, 9),
            row(12, 12, 12),
        ],
        vec![row(13, 6, 0), row(13, 8, 9), row(13, 10, 1)],
        vec![row(13, 14, 0), row(13, 16, 9)],
    ];
    assert_eq!(after.links_in_use(), rows.concat());
    // The old lookups keep their bytes.
    assert_eq!(after.bytes(5), store.bytes(5));
    assert_eq!(after.bytes(6), store.bytes(6));
}

/// Of the split 26 bytes, 3 objects and a link; of the lookups their old bytes and links, and a slot and a
/// link for each of three listings.
#[test]
fn what_is_needed() {
    let (store, list) = two_lookups();
    let need = Need::in_lookups(&store, list, TABLE, First);
    let lookups = store.bytes(5).len() + store.bytes(6).len() + 3 * 2;
    assert_eq!(need.room, [26 + lookups, 3 + 2, 1 + 3 + 3 + 3]);
    assert_eq!([need.walk, need.glyphs, need.items], [18, 3, 3]);
    assert_eq!(need.list, 1);
}

/// Split and lookups are counted together: what is enough for either alone is not enough.
#[test]
fn room_at_its_edge() {
    let (store, list) = two_lookups();
    let exact = call(&store, list);
    assert_eq!(answer(&exact), 0);
    let [mut data, mut objects, mut links, mut entries] = [(); 4].map(|()| exact.clone());
    data.store.data.pop();
    objects.store.objects.pop();
    links.store.links.pop();
    entries.list.pop();
    for short in [data, objects, links, entries] {
        assert_eq!(answer(&short), 8);
    }
}

/// Lookups of another type, of pairs that name another table, and outside the list, stay as they are.
#[test]
fn other_lookups_stay() {
    let mut store = cut();
    let other = push_other(&mut store);
    let named = push_lookup(&mut store, [2, PLAIN], &[Some(other), Some(TABLE)]);
    let of_marks = push_lookup(&mut store, [OTHER, PLAIN], &[Some(TABLE)]);
    let of_pairs = push_lookup(&mut store, [2, FILTER], &[Some(other), None]);
    let outside = push_lookup(&mut store, [2, PLAIN], &[Some(TABLE), Some(named)]);
    let slots = [of_marks, of_pairs, named].map(Some);
    let list = push_list(&mut store, &slots);
    let split = split(&store, list);
    let after = &split.after.store;
    let children = |object| -> Vec<u32> {
        let links = after.links(object).into_iter();
        links.map(|(_, child)| child).collect()
    };
    let new = after.counts[1] - 1;
    assert_eq!(children(list), [of_marks, of_pairs, new]);
    assert_eq!(children(of_marks), [TABLE]);
    assert_eq!(children(outside), [TABLE, new]);
    assert_eq!(children(new), [other, TABLE, split.new_tables()[0]]);
}

/// Both tables have the pairs of glyph 10 and of glyph 30 with glyph 1: the first one of the lookup decides,
/// before and after.
#[test]
fn the_first_subtable_decides() {
    for table_first in [true, false] {
        let mut store = cut();
        let other = push_other(&mut store);
        let mut slots = [Some(TABLE), Some(other)];
        if !table_first {
            slots.reverse();
        }
        let lookup = push_lookup(&mut store, [2, PLAIN], &slots);
        let list = push_list(&mut store, &[Some(lookup)]);
        let split = split(&store, list);
        let after = &split.after.store;
        let applied = [(&store, lookup), (after, after.counts[1] - 1)].map(|(store, lookup)| {
            let subtables = Subtables::of(store, lookup).unwrap();
            let pairs = [
                [10, 1],
                [30, 1],
                [30, 9_000],
                [10, 7_499],
                [20, 1],
                [20, 9_000],
            ];
            pairs.map(|glyphs| subtables.apply(glyphs).values[2])
        });
        let [ten, thirty] = if table_first { [2, 4] } else { [500, 500] };
        assert_eq!(applied, [[ten, thirty, 501, 2, 3, 0]; 2]);
    }
}

/// The other table has a device that is the lookup: a link to that leads elsewhere afterwards.
#[test]
fn what_reaches_the_table_may_say_something_else() {
    let mut store = cut();
    let other = store.push_object(&bytes([1, 0, 0x0010, 0, 1, 0])) as u32;
    let coverage = store.push_object(&bytes([1, 1, 7]));
    let set = store.push_object(&bytes([1, 8, 0]));
    store.push_link(other as usize, 2, coverage);
    store.push_link(other as usize, 10, set);
    let lookup = push_lookup(&mut store, [2, PLAIN], &[Some(TABLE), Some(other)]);
    let list = push_list(&mut store, &[Some(lookup)]);
    store.push_link(set, 4, lookup as usize);
    let split = split(&store, list);
    let read = |store: &Store| {
        let mut pair = Pair::default();
        assert_eq!(Archive.read_pair(store, other, [7, 8], &mut pair), 0);
        pair.values[4] as u32 - 1
    };
    assert_eq!(read(&store), lookup);
    assert_eq!(read(&split.after.store), split.after.store.counts[1] - 1);
    assert!(!Subtables::of(&store, lookup).unwrap().stay_with(TABLE));
}

/// A table that fits: nothing is written, also where a lookup could not count one subtable more.
#[test]
fn no_cut_and_no_change() {
    let mut store = format1_records(&[10], &[3]);
    let slots = [&[Some(TABLE)], &vec![None; 65_534][..]].concat();
    let lookup = push_lookup(&mut store, [2, PLAIN], &slots);
    let list = push_list(&mut store, &[Some(lookup)]);
    let call = call(&store, list);
    assert_eq!(answer(&call), 0);
    assert_eq!(Split::by(&InLookups(&Archive), &call).after.store, store);
}

/// Empty slots are counted too.
#[test]
fn there_are_65_535_subtables_and_no_more() {
    let with_slots = |count: usize, filter: u16| {
        let mut store = cut();
        let mut slots = vec![None; count];
        slots[0] = Some(TABLE);
        slots[count - 1] = Some(TABLE);
        let lookup = push_lookup(&mut store, [2, filter], &slots);
        let list = push_list(&mut store, &[Some(lookup)]);
        call(&store, list)
    };
    for filter in [PLAIN, FILTER] {
        let most = with_slots(65_533, filter);
        assert_eq!(answer(&most), 0);
        let mut after = most.clone();
        Archive.split_in_lookups(&mut after);
        let new = after.store.counts[1] - 1;
        assert_eq!(after.store.bytes(new)[4..6], [0xFF, 0xFF]);
        assert_eq!(answer(&with_slots(65_534, filter)), 10);
        assert_eq!(answer(&with_slots(65_535, filter)), 10);
    }
    // Directly before 8, behind all others.
    let mut many = with_slots(65_534, PLAIN);
    many.list.clear();
    assert_eq!(answer(&many), 10);
    many.scratch.cuts.pop();
    assert_eq!(answer(&many), 6);
}

/// The list leads to itself, as a lookup of type 5 with three slots. It is no lookup of pairs, and stays one.
#[test]
fn a_list_may_lead_to_itself() {
    let mut store = cut();
    let lookup = push_lookup(&mut store, [2, PLAIN], &[Some(TABLE)]);
    let list = store.push_object(&bytes([5, 0xFFEF, 3, 0, 0, 0]));
    store.push_link(list, 6, list);
    store.push_link(list, 10, lookup as usize);
    let split = split(&store, list as u32);
    let new = split.after.store.counts[1] - 1;
    let links = [(6, list as u32), (10, new)];
    assert_eq!(split.after.store.links(list as u32), links);
}

/// The order decides: as a list the table has to be a list first.
#[test]
fn a_list_may_be_the_table() {
    let (store, _) = two_lookups();
    assert_eq!(answer(&call(&store, TABLE)), 9);
    // A list of one slot that leads to a lookup of pairs that names it: a table of format 1, under 10 bytes.
    let mut list = Store::default();
    list.push_object(&bytes([1, 0]));
    let lookup = push_lookup(&mut list, [2, PLAIN], &[Some(0)]);
    list.push_link(0, 2, lookup as usize);
    assert_eq!(answer(&call(&list, 0)), 3);
}

/// 9 is given exactly if it applies, whatever scratch is lent.
#[test]
fn scratch_is_looked_at_after_the_list() {
    let (store, list) = two_lookups();
    let whole = call(&store, list);
    for walk in [0, 1, 5, 17] {
        let mut call = whole.clone();
        call.scratch.walk.truncate(walk);
        assert_eq!(answer(&call), 6);
        let mut wrong = call.clone();
        edit::set_word(&mut wrong.store, 5, 4, 3);
        assert_eq!(answer(&wrong), 9);
    }
}
