//! Tables in lookups made by hand: limits, and shapes that seldom come by chance.

use super::{super::plain, Case};
use crate::{
    by_hand::{format1_records, push_list, push_lookup},
    edit,
    generate::Listed,
    lend,
    model::lookups::FILTERS,
    Call, Edition, Functions, Random,
};
use oracle::Store;

/// The table of each of these stores.
const TABLE: u32 = 0;

/// Those that are stored whole.
pub fn all() -> Vec<Case> {
    let stores = [
        ("a lookup of one table", one_lookup(1)),
        ("a lookup, and nothing to cut", nothing_to_cut()),
        ("a table listed three times", one_lookup(3)),
        ("lookups that name each other", each_other()),
        ("lookups of other types, and elsewhere", other_types()),
        ("as many subtables as can be counted", many_slots(65_534)),
        ("one subtable more than can be counted", many_slots(65_535)),
        ("a list that leads to itself", list_of_itself()),
        ("order-only links of lookups to lookups", ordered()),
    ];
    let case = |(name, listed)| case(name, listed, Edition::First);
    stores.map(case).into()
}

/// Those that are stored of the second edition.
pub fn second() -> Vec<Case> {
    let stores = [
        ("a table in which all sets share", one_lookup_of_shares()),
        ("lookups that name each other, once more", each_other()),
        ("order-only links of lookups, once more", ordered()),
    ];
    let case = |(name, listed)| case(name, listed, Edition::Second);
    stores.map(case).into()
}

fn case(name: &str, (store, list): (Store, u32), edition: Edition) -> Case {
    Case {
        name: name.into(),
        functions: Functions::InLookups,
        call: lent(store, list, edition),
    }
}

/// Some, all of them cut.
pub fn to_damage() -> [Call<u32>; 4] {
    let listed = [one_lookup(2), each_other(), other_types(), ordered()];
    listed.map(|(store, list)| lent(store, list, Edition::First))
}

/// Exactly what is needed is lent.
fn lent(store: Store, list: u32, edition: Edition) -> Call<u32> {
    let case = Listed {
        store,
        list,
        table: TABLE,
    };
    plain::lent(lend::in_lookups_exactly(
        &case,
        edition,
        &mut Random::new(0),
    ))
}

/// So many sets, of which each leads to something large: one cut less.
fn cut(sets: usize) -> Store {
    let glyphs: Vec<u16> = (1..=sets as u16).map(|set| 10 * set).collect();
    let mut store = format1_records(&glyphs, &vec![2; sets]);
    for set in 2..2 + sets {
        let large = store.push_object(&[0; 40_000]);
        store.push_link(set, 0, large);
    }
    store
}

fn one_lookup(listings: usize) -> (Store, u32) {
    let mut store = cut(1 + listings);
    let mut slots = vec![Some(TABLE); listings];
    slots.push(None);
    slots.push(Some(1));
    let lookup = push_lookup(&mut store, [2, FILTERS], &slots);
    let list = push_list(&mut store, &[Some(lookup)]);
    (store, list)
}

/// Three sets that lead to what is large, each to its own, and all to something else.
fn one_lookup_of_shares() -> (Store, u32) {
    let mut store = cut(3);
    let shared = store.push_object(&[0; 30_000]);
    for set in 2..5 {
        store.push_link(set, 4, shared);
    }
    let lookup = push_lookup(&mut store, [2, 0], &[Some(TABLE)]);
    let list = push_list(&mut store, &[Some(lookup)]);
    (store, list)
}

fn nothing_to_cut() -> (Store, u32) {
    let mut store = format1_records(&[10, 20], &[2; 2]);
    let lookup = push_lookup(&mut store, [2, 0], &[Some(TABLE)]);
    let list = push_list(&mut store, &[None, Some(lookup)]);
    (store, list)
}

/// In the list the later one comes first, and the other twice.
fn each_other() -> (Store, u32) {
    let mut store = cut(3);
    let first = push_lookup(&mut store, [2, 0], &[None, Some(TABLE)]);
    let slots = [Some(first), Some(TABLE), Some(first + 1)];
    let second = push_lookup(&mut store, [2, FILTERS], &slots);
    edit::link(&mut store, first, 6, second);
    let list = push_list(&mut store, &[second, first, first].map(Some));
    (store, list)
}

/// The table, its coverage, two lookups and the list: each is placed after each, itself too. The later lookup is
/// written first, so the rows to them change places.
fn ordered() -> (Store, u32) {
    let (mut store, list) = each_other();
    let objects = [TABLE, 1, list - 2, list - 1, list].map(|object| object as usize);
    for parent in objects {
        for child in objects {
            store.push_order_link(parent, child);
        }
    }
    (store, list)
}

fn other_types() -> (Store, u32) {
    let mut store = cut(5);
    let of_marks = push_lookup(&mut store, [4, 0], &[Some(TABLE)]);
    let of_pairs = push_lookup(&mut store, [2, 0], &[Some(TABLE), Some(1)]);
    let outside = push_lookup(&mut store, [2, 0], &[Some(TABLE), Some(of_pairs)]);
    let list = push_list(&mut store, &[Some(of_marks), None, Some(of_pairs)]);
    edit::link(&mut store, outside, 8, of_pairs);
    (store, list)
}

/// A lookup that has so many slots and one for each of two new tables, less one.
fn many_slots(count: usize) -> (Store, u32) {
    let mut store = cut(3);
    let mut slots = vec![None; count - 1];
    slots[0] = Some(TABLE);
    let lookup = push_lookup(&mut store, [2, 0], &slots);
    let list = push_list(&mut store, &[Some(lookup)]);
    (store, list)
}

/// As a lookup it is of type 4, with two slots.
fn list_of_itself() -> (Store, u32) {
    let mut store = cut(3);
    let lookup = push_lookup(&mut store, [2, 0], &[Some(TABLE)]);
    let list = push_list(&mut store, &[None, None, None, Some(lookup)]);
    edit::set_word(&mut store, list, 2, 0);
    edit::set_word(&mut store, list, 4, 2);
    edit::link(&mut store, list, 6, list);
    (store, list)
}
