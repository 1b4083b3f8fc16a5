//! Stores made by hand: document 01's figures, limits, and shapes that seldom come by chance.

use super::{super::plain, Case, PAIRS};
use crate::{
    by_hand::{format1_slots, format2, lengthen},
    edit, lend,
    model::{answers, numbers::bytes, opened::Opened},
    Call, Edition, Random,
};
use oracle::Store;

/// The table of each of these stores.
const TABLE: usize = 0;

/// Those that are stored whole.
pub fn all() -> Vec<Case> {
    let mut cases = Vec::new();
    let mut add = |name: &str, store: Store| cases.push(case(name, store, Edition::First));
    let three = [10, 20, 30];
    add("no sets", format1(&[], &[]));
    add("three sets, one cut", format1(&three, &[30_000; 3]));
    add("a set below the limit", format1(&[10], &[65_516]));
    add("a set at the limit", format1(&[10], &[65_517]));
    add(
        "a set past the limit, cut at nought",
        format1(&[10], &[65_518]),
    );
    add("a set well past the limit", format1(&[10], &[65_519]));
    add(
        "two cuts, and a glyph too many",
        format1(&[10, 20, 30, 40], &[40_000; 3]),
    );
    add("empty slots and a run of glyphs", empty_slots());
    add("what two sets share is counted once", shared());
    add("one set in two slots", one_set(2, 40_000));
    add("one set in forty slots, each a cut", one_set(40, 65_535));
    add("loops beside the table", loops());
    add("order-only links of all to all", ordered());
    add("a table that is placed after all others", placed_last());
    add("no rows", format2([4, 0], [0, 3], &[], &no_classes()));
    add("rows of one field", rows_of_one_field());
    for (total, name) in [
        (65_535, "rows at the limit"),
        (65_536, "rows past the limit"),
    ] {
        add(name, devices(total));
    }
    add("one device of all rows, each a cut", one_device_of_all());
    add("order-only links beside devices", ordered_devices());
    add(
        "more records than sixteen bits count",
        many_records(&[464, 32_700, 65_535]),
    );
    add("no glyphs, and a row that fits", one_row(0x001F, 6_551));
    add(
        "no glyphs, and a row that does not fit",
        one_row(0x000F, 8_189),
    );
    add("one object as coverage and class definitions", one_part());
    add(
        "glyphs of classes that have no row",
        classes_past_the_rows(),
    );
    add("another format", another_format());
    cases
}

/// Those that are stored of the second edition, which cuts most of them in other places than the first.
pub fn second() -> Vec<Case> {
    let stores = [
        ("an only set that is too large", format1(&[10], &[65_518])),
        (
            "a first set that is too large",
            format1(&[10, 20, 30], &[65_518, 10, 10]),
        ),
        ("the set at a cut is measured again", shared()),
        ("an empty slot at the limit", one_empty_slot(65_513)),
        ("an empty slot past the limit", one_empty_slot(65_514)),
        ("empty slots count", empty_slots()),
        (
            "one set in forty slots, too large for any",
            one_set(40, 65_535),
        ),
        (
            "the device of all rows, seen from the first",
            one_device_of_all(),
        ),
        ("rows past the limit by both editions", devices(65_536)),
        ("order-only links, seen by no edition", ordered()),
        (
            "a row that does not fit, and no cut",
            one_row(0x000F, 8_189),
        ),
    ];
    let case = |(name, store)| case(name, store, Edition::Second);
    stores.map(case).into()
}

fn case(name: &str, store: Store, edition: Edition) -> Case {
    Case {
        name: name.into(),
        functions: PAIRS,
        call: lent(store, edition),
    }
}

/// Some of both formats, all of them cut.
pub fn to_damage() -> [Call<u32>; 8] {
    let stores = [
        format1(&[10, 20, 30], &[30_000; 3]),
        devices(65_536),
        empty_slots(),
        one_device_of_all(),
        loops(),
        shared(),
        ordered_devices(),
        classes_past_the_rows(),
    ];
    stores.map(|store| lent(store, Edition::First))
}

/// Exactly what is needed is lent.
fn lent(store: Store, edition: Edition) -> Call<u32> {
    let store = plain::store(&store, TABLE as u32);
    let call = lend::exactly(&store, TABLE as u32, edition, &mut Random::new(0));
    plain::lent(call)
}

/// Format 1 with a pair set for each length, from object 2 on. Coverage is object 1, and what makes up the
/// lengths comes behind the sets.
fn format1(glyphs: &[u16], lengths: &[usize]) -> Store {
    let mut store = format1_slots(glyphs, lengths.len());
    for i in 0..lengths.len() {
        let set = store.push_object(&pair_set(i));
        store.push_link(TABLE, 10 + 2 * i as u32, set);
    }
    for (i, &length) in lengths.iter().enumerate() {
        lengthen(&mut store, 2 + i, length);
    }
    store
}

/// Two records: of glyph 5, and of glyph 7 with a value below 0.
fn pair_set(i: usize) -> Vec<u8> {
    bytes([2, 5, 1 + i as u16, 7, u16::MAX - i as u16])
}

fn empty_slots() -> Store {
    let glyphs: Vec<u16> = (200..212).collect();
    let mut store = format1_slots(&glyphs, 12);
    for (i, slot) in [1, 2, 5, 6, 10].into_iter().enumerate() {
        let set = store.push_object(&pair_set(i));
        store.push_link(TABLE, 10 + 2 * slot, set);
        lengthen(&mut store, set, 20_000);
    }
    store
}

/// The second set's share was counted before the cut, and is not measured again.
fn shared() -> Store {
    let mut store = format1(&[10, 20, 30], &[100, 30_000, 20_000]);
    let below = store.push_object(&[0; 40_000]);
    store.push_link(2, 4, below);
    store.push_link(3, 4, below);
    store
}

/// A set of this length, and a slot behind it that is empty.
fn one_empty_slot(length: usize) -> Store {
    let mut store = format1_slots(&[10, 20], 2);
    let set = store.push_object(&pair_set(0));
    store.push_link(TABLE, 10, set);
    lengthen(&mut store, set, length);
    store
}

fn one_set(slots: usize, length: usize) -> Store {
    let glyphs: Vec<u16> = (0..slots as u16).map(|slot| 3 * slot).collect();
    let mut store = format1_slots(&glyphs, slots);
    let set = store.push_object(&pair_set(0));
    lengthen(&mut store, set, length);
    for slot in 0..slots as u32 {
        store.push_link(TABLE, 10 + 2 * slot, set);
    }
    store
}

/// A set that leads to itself, two objects that lead to each other, and one that leads to the table.
fn loops() -> Store {
    let mut store = format1(&[10, 20, 30], &[30_000; 3]);
    let [first, second, outside] = [400, 500, 4].map(|length| store.push_object(&vec![0; length]));
    store.push_link(2, 4, 2);
    store.push_link(3, 8, first);
    store.push_link(first, 0, second);
    store.push_link(second, 1, first);
    store.push_link(outside, 2, TABLE);
    store
}

/// Each of these is placed after each, itself too: a kept set, one that is cut off, what they lead to, the table
/// and its coverage.
fn ordered() -> Store {
    let mut store = format1(&[10, 20, 30], &[30_000; 3]);
    let objects = [TABLE, 1, 2, 4, 5, 7];
    for parent in objects {
        for child in objects {
            store.push_order_link(parent, child);
        }
    }
    store
}

/// An object without bytes is placed after the table, and the table after all.
fn placed_last() -> Store {
    let mut store = format1(&[10, 20, 30, 40], &[40_000; 3]);
    let nothing = store.push_object(&[]);
    for child in 0..=nothing {
        store.push_order_link(TABLE, child);
    }
    store.push_order_link(nothing, TABLE);
    store
}

fn no_classes() -> Vec<u8> {
    bytes([2, 0])
}

/// Class 0 for glyph 3, and so on to class 3 for glyph 6.
fn few_classes() -> Vec<u8> {
    bytes([1, 3, 4, 0, 1, 2, 3])
}

/// 170 rows of 200 columns are cut at 162.
fn rows_of_one_field() -> Store {
    let classes: Vec<_> = (0..170).map(|class| (100 + class, class)).collect();
    let mut class_def2 = bytes([1, 100, 202]);
    class_def2.resize(410, 0);
    class_def2[406..].copy_from_slice(&[0, 100, 0, 199]);
    format2([4, 0], [170, 200], &classes, &class_def2)
}

/// Eight rows with devices, in both glyphs' values; what they share makes the last total.
fn devices(total: usize) -> Store {
    let classes: Vec<_> = (0..24).map(|i| (50 + 3 * i, i % 8)).collect();
    let mut store = format2([0x0014, 0x0082], [8, 4], &classes, &few_classes());
    let devices = [12, 20, 36].map(|length| store.push_object(&vec![0; length]));
    let large = store.push_object(&[]);
    let record = 8;
    for row in 0..8 {
        let device = devices[row as usize % 3];
        store.push_link(TABLE, 16 + record * (4 * row) + 2, device);
        store.push_link(TABLE, 16 + record * (4 * row + 2) + 6, devices[1]);
    }
    store.push_link(TABLE, 16 + record * 31 + 2, large);
    let pairpos = answers::open(&store, TABLE as u32).ok().flatten();
    let last = pairpos.and_then(|pairpos| pairpos.weigh(Edition::First).pop());
    let length = total - last.expect("a last row").total;
    edit::replace(&mut store, large as u32, &vec![0; length]);
    store
}

/// The table, its parts and its devices are placed after the one before them, and the first after the last.
fn ordered_devices() -> Store {
    let mut store = devices(65_536);
    let count = store.counts[1] as usize;
    for parent in 0..count {
        store.push_order_link(parent, (parent + count - 1) % count);
    }
    store
}

fn one_device_of_all() -> Store {
    let classes: Vec<_> = (0..12).map(|class| (100 + class, class)).collect();
    let mut store = format2([0x0010, 1], [12, 4], &classes, &few_classes());
    let device = store.push_object(&[0; 65_520]);
    for row in 0..12 {
        store.push_link(TABLE, 16 + 16 * row, device);
    }
    store
}

/// 220 rows of 300 columns, with devices at some records.
fn many_records(records: &[u32]) -> Store {
    let classes = [(7, 0), (8, 108), (9, 109), (10, 217), (11, 218), (12, 219)];
    let mut store = format2([0x0010, 0], [220, 300], &classes, &few_classes());
    for &record in records {
        let device = store.push_object(&[0; 8]);
        store.push_link(TABLE, 16 + 2 * record, device);
    }
    store
}

fn one_row(format: u16, columns: u16) -> Store {
    format2([format, 0], [1, columns], &[], &bytes([1, 0, 0]))
}

/// Ranges of glyphs, whose start indices are their classes too.
fn one_part() -> Store {
    let mut store = format2([3, 1], [30, 30], &[], &no_classes());
    let part = bytes([2, 4, 5, 9, 0, 20, 29, 5, 31, 40, 15, 60, 61, 25]);
    edit::replace(&mut store, 1, &part);
    edit::link(&mut store, TABLE as u32, 8, 1);
    edit::link(&mut store, TABLE as u32, 10, 1);
    store
}

fn classes_past_the_rows() -> Store {
    let classes: Vec<_> = (0..60).map(|i| (2 * i, i % 9)).collect();
    let mut store = format2([5, 0], [6, 4], &classes, &few_classes());
    edit::replace(&mut store, TABLE as u32, &{
        let mut table = bytes([2, 0, 5, 0, 0, 0, 6, 7_000]);
        table.resize(16 + 6 * 7_000 * 4, 0);
        table
    });
    store
}

fn another_format() -> Store {
    let mut store = format1(&[10, 20, 30], &[30_000; 3]);
    store.data[1] = 3;
    store
}
