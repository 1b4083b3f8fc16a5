//! Mark-to-base tables made by hand: limits, and shapes that seldom come by chance.

use super::{super::plain, Case, MARKS};
use crate::{
    by_hand::{marks, push_anchor, BASE_ARRAY, BASE_COVERAGE, MARK_ARRAY},
    edit, lend,
    model::{coverage, numbers::bytes},
    Call, Edition, Random,
};
use oracle::Store;

/// The table of each of these stores.
const TABLE: u32 = 0;

/// Those that are stored whole.
pub fn all() -> Vec<Case> {
    let stores = [
        ("no class of marks", marks(0, &[], 0)),
        ("marks, and nothing to cut", three_classes(6)),
        (
            "marks in no order of classes, two cuts",
            three_classes(40_000),
        ),
        ("marks at the limit", one_class(65_509)),
        ("marks past the limit, cut at nought", one_class(65_510)),
        ("a class without marks is cut off", empty_class()),
        ("an anchor of marks and bases", one_anchor()),
        ("one object as both arrays", one_array()),
        (
            "mark glyphs and base glyphs past the arrays",
            glyphs_past_the_arrays(),
        ),
        ("one array of two tables", array_of_two_tables()),
        ("many classes, each a cut", many_cuts()),
        ("order-only links of arrays and anchors", ordered(40_000)),
        ("order-only links, and nothing to cut off", ordered(6)),
        ("another format of marks", another_format()),
    ];
    let case = |(name, store)| case(name, store, Edition::First);
    stores.map(case).into()
}

/// Those that are stored of the second edition.
pub fn second() -> Vec<Case> {
    let stores = [
        ("an only class that is too large", one_class(65_510)),
        ("a first class that is too large", empty_class()),
        ("one anchor of all classes", one_anchor()),
        ("many classes, each too large", many_cuts()),
        (
            "order-only links of marks, seen by no edition",
            ordered(40_000),
        ),
    ];
    let case = |(name, store)| case(name, store, Edition::Second);
    stores.map(case).into()
}

fn case(name: &str, store: Store, edition: Edition) -> Case {
    Case {
        name: name.into(),
        functions: MARKS,
        call: lent(store, edition),
    }
}

/// Some, all of them cut.
pub fn to_damage() -> [Call<u32>; 4] {
    [
        three_classes(40_000),
        one_anchor(),
        ordered(40_000),
        glyphs_past_the_arrays(),
    ]
    .map(|store| lent(store, Edition::First))
}

/// Exactly what is needed is lent.
fn lent(store: Store, edition: Edition) -> Call<u32> {
    let store = plain::marks_store(&store, TABLE);
    let call = lend::marks_exactly(&store, TABLE, edition, &mut Random::new(0));
    plain::lent(call)
}

/// Three classes with four marks and two bases. The first base has an anchor of this length in each, and
/// the second one none in class 1; a mark of class 0 has none.
fn three_classes(length: usize) -> Store {
    let mut store = marks(3, &[2, 0, 1, 0], 2);
    for position in [4, 8, 12] {
        push_anchor(&mut store, MARK_ARRAY, position, 6);
    }
    for position in [2, 4, 6] {
        push_anchor(&mut store, BASE_ARRAY, position, length);
    }
    for position in [8, 12] {
        push_anchor(&mut store, BASE_ARRAY, position, 6);
    }
    store
}

/// Both arrays and the table are placed after each other and themselves, anchors after the table, and the table
/// after anchors.
fn ordered(length: usize) -> Store {
    let mut store = three_classes(length);
    let parts = [TABLE, MARK_ARRAY, BASE_ARRAY].map(|part| part as usize);
    for parent in parts {
        for child in parts {
            store.push_order_link(parent, child);
        }
    }
    for anchor in 5..store.counts[1] as usize {
        store.push_order_link(anchor, TABLE as usize);
        store.push_order_link(TABLE as usize, anchor);
    }
    store
}

/// One class, one base and no mark: 26 bytes beside the anchor.
fn one_class(length: usize) -> Store {
    let mut store = marks(1, &[], 1);
    edit::replace(&mut store, BASE_COVERAGE, &coverage::write(&[]));
    push_anchor(&mut store, BASE_ARRAY, 2, length);
    store
}

/// Class 0 is too large by itself, so that class 1, which is empty, is cut off too.
fn empty_class() -> Store {
    let mut store = marks(3, &[0, 2], 1);
    push_anchor(&mut store, BASE_ARRAY, 2, 65_535);
    push_anchor(&mut store, MARK_ARRAY, 8, 6);
    push_anchor(&mut store, BASE_ARRAY, 6, 6);
    store
}

/// All slots of both arrays lead to one anchor, which leads to a device.
fn one_anchor() -> Store {
    let mut store = marks(4, &[3, 2, 1, 0], 2);
    let anchor = push_anchor(&mut store, MARK_ARRAY, 4, 40_000);
    push_anchor(&mut store, anchor, 6, 30_000);
    for position in [8, 12, 16] {
        edit::link(&mut store, MARK_ARRAY, position, anchor);
    }
    for slot in 0..8 {
        edit::link(&mut store, BASE_ARRAY, 2 + 2 * slot, anchor);
    }
    store
}

/// Two classes: a mark is as long as a base.
fn one_array() -> Store {
    let mut store = marks(2, &[1, 0], 2);
    edit::link(&mut store, TABLE, 10, MARK_ARRAY);
    for position in [4, 8] {
        push_anchor(&mut store, MARK_ARRAY, position, 40_000);
    }
    store
}

fn glyphs_past_the_arrays() -> Store {
    let mut store = three_classes(50_000);
    let glyphs: Vec<u16> = (5..30).map(|glyph| 2 * glyph).collect();
    edit::replace(&mut store, 1, &coverage::write(&glyphs));
    edit::replace(&mut store, BASE_COVERAGE, &bytes([2, 1, 5, 500, 0]));
    store
}

/// Another table has the base array too.
fn array_of_two_tables() -> Store {
    let mut store = three_classes(40_000);
    let other = edit::add(&mut store, &bytes([1, 0, 0, 3, 0, 0]));
    edit::link(&mut store, other, 10, BASE_ARRAY);
    store
}

fn many_cuts() -> Store {
    let classes: Vec<u16> = (0..20).rev().collect();
    let mut store = marks(20, &classes, 1);
    let anchor = push_anchor(&mut store, BASE_ARRAY, 2, 65_535);
    for class in 1..20 {
        edit::link(&mut store, BASE_ARRAY, 2 + 2 * class, anchor);
    }
    store
}

fn another_format() -> Store {
    let mut store = three_classes(40_000);
    edit::set_word(&mut store, TABLE, 0, 2);
    store
}
