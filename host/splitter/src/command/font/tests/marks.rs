//! Mark tables of small fonts by hand, whole and damaged.

use super::made::{extension, gpos, lookup, mark_table, pair_sets, words};
use splitter::{
    cut_plan_marks,
    font::{lengths, load_marks, Bytes, FontError, Lookups, TABLE},
    Edition::First,
    Kind, Scratch, Store,
};

/// The stores of all mark tables of some lookups.
fn load(lookups: &[Vec<u8>]) -> Result<Vec<Store>, FontError> {
    let gpos = gpos(lookups);
    let gpos = Bytes::new(&gpos);
    let subtables = Lookups::read(gpos, Kind::Marks)?.subtables.into_iter();
    let stores = subtables.map(|subtable| load_marks(gpos, subtable.start));
    stores.collect()
}

fn load_one(table: Vec<u8>) -> Result<Store, FontError> {
    let mut stores = load(&[lookup(4, &[table])])?;
    Ok(stores.pop().expect("one table"))
}

#[test]
fn a_mark_table() {
    let store = load_one(mark_table()).unwrap();
    let view = store.view();
    // Table, two coverages, two arrays, three anchors and a device.
    assert_eq!(view.counts(), [82, 9, 11]);
    let part = |position| view.child(TABLE, position).unwrap();
    assert_eq!(view.object(part(2)), Some(&words(&[1, 2, 5, 7])[..]));
    assert_eq!(view.object(part(4)), Some(&words(&[2, 1, 60, 61, 0])[..]));
    let (marks, bases) = (part(8), part(10));
    let [first, second] = [4, 8].map(|position| view.child(marks, position));
    assert_eq!(first, second);
    let anchors = [2, 4, 6, 8].map(|position| view.child(bases, position));
    assert_eq!([anchors[0], anchors[2]], [first, None]);
    let lengths = anchors.map(|anchor| anchor.map(|anchor| view.object(anchor).unwrap().len()));
    assert_eq!(lengths, [Some(6), Some(10), None, Some(8)]);
    let devices = [6, 8].map(|position| view.child(anchors[1].unwrap(), position));
    assert_eq!(devices[0], devices[1]);
    assert_eq!(view.object(devices[0].unwrap()).unwrap().len(), 8);
}

/// As they are and through extensions; lookups for pairs are not looked at, nor mark tables for pairs.
#[test]
fn lookups_for_marks() {
    let lookups = [
        lookup(2, &[pair_sets()]),
        lookup(
            9,
            &[extension(2, &pair_sets()), extension(4, &mark_table())],
        ),
        lookup(4, &[mark_table(), mark_table()]),
    ];
    let gpos = gpos(&lookups);
    let places = |kind| {
        let lookups = Lookups::read(Bytes::new(&gpos), kind).unwrap();
        let places = lookups.subtables.iter().map(|it| (it.lookup, it.number));
        (lookups.of_kind, places.collect::<Vec<_>>())
    };
    assert_eq!(places(Kind::Marks), (2, vec![(1, 1), (2, 0), (2, 1)]));
    assert_eq!(places(Kind::Pairs), (2, vec![(0, 0), (1, 0)]));
    let stores = load(&lookups).unwrap();
    let counts: Vec<_> = stores.iter().map(|store| store.view().counts()).collect();
    assert_eq!(counts, [[82, 9, 11]; 3]);
}

/// One object may be both arrays, and a table of another format is its format alone.
#[test]
fn parts_that_are_shared_or_unknown() {
    let both = words(&[1, 12, 12, 2, 16, 16, 1, 0, 0]);
    let store = load_one(both).unwrap();
    assert_eq!(store.view().counts(), [18, 3, 4]);
    assert_eq!(store.view().child(TABLE, 8), store.view().child(TABLE, 10));
    let store = load_one(words(&[2, 12, 12, 2, 16, 16])).unwrap();
    assert_eq!(store.view().counts(), [2, 1, 0]);
}

/// Offsets are those of an array or an anchor, so that a table of more than 65,535 bytes is packed with
/// ease: two classes, each with an anchor that has a device of 40,006.
#[test]
fn cut_places_on_disk() {
    let mut table = words(&[1, 12, 18, 2, 24, 30]);
    table.extend(words(&[1, 1, 5, 1, 1, 60]));
    table.extend(words(&[1, 0, 0, 1, 36 - 30, 40_052 - 30]));
    for _ in 0..2 {
        table.extend(words(&[3, 100, 200, 10, 0, 0, 39_999, 3]));
        table.resize(table.len() + 40_000, 0);
    }
    let store = load_one(table).unwrap();
    assert_eq!(store.view().counts(), [36 + 2 * 40_016, 9, 8]);
    let cuts = cut_plan_marks(&store, TABLE, First, &mut Scratch::new());
    assert_eq!(cuts, Ok(vec![1]));
}

/// Offsets of 0 lead nowhere.
#[test]
fn a_table_without_parts() {
    let store = load_one(words(&[1, 0, 0, 2, 0, 0])).unwrap();
    assert_eq!(store.view().counts(), [12, 1, 0]);
}

#[test]
fn lengths_of_anchors() {
    let len = |format| lengths::anchor(Bytes::new(&words(&[format])), 0);
    assert_eq!([0, 1, 2, 3, 4].map(len), [2, 6, 8, 10, 2].map(Ok));
}

/// Tables that end anywhere are refused by name: the device is their last part.
#[test]
fn mark_tables_that_end_anywhere() {
    let table = mark_table();
    for len in 0..table.len() {
        let error = load_one(table[..len].to_vec()).map(|store| store.view().counts());
        assert!(matches!(error, Err(FontError::Ends { .. })), "{len}");
    }
}

/// Any byte may be any other.
#[test]
fn mark_tables_with_a_damaged_byte() {
    let table = mark_table();
    let mut errors = 0;
    for place in 0..table.len() {
        for change in [1, 0x80, 0xFF, 7] {
            let mut table = table.clone();
            table[place] ^= change;
            errors += usize::from(load_one(table).is_err());
        }
    }
    assert!(errors > 20);
}
