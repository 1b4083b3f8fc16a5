//! Stores at their maxima, and as many cuts as there can be.

use differential::{
    check::{all_agree, as_the_oracle, frame, split_agrees, Outcome, Split},
    edit, lend,
    model::{class_def, coverage, numbers::bytes, soundness::MAXIMA},
    Archive,
    Edition::First,
    Random, Subject, Tally,
};
use oracle::{link, Store};

/// A format 1 table, object 0, whose slots all lead to one set of 65,538 bytes: each is a cut.
fn all_cuts(slots: u16) -> Store {
    let mut store = Store::default();
    let mut table = bytes([1, 0, 4, 0, slots]);
    table.resize(10 + 2 * slots as usize, 0);
    let glyphs: Vec<u16> = (0..slots).collect();
    let records = (0..16_384).flat_map(|second| [second, 0]);
    let set = bytes([16_384].into_iter().chain(records));
    for object in [table, coverage::write(&glyphs), set] {
        store.push_object(&object);
    }
    let sets = (0..slots as u32).map(|slot| link::offset(0, 10 + 2 * slot, 2));
    store.links = [link::offset(0, 2, 1)]
        .into_iter()
        .chain(sets)
        .flatten()
        .collect();
    store.counts[2] = slots as u32 + 1;
    store
}

/// The answer of a split that is lent far more than the maxima.
fn answer(store: &Store) -> u32 {
    let mut call = lend::exactly(store, 0, First, &mut Random::new(0));
    call.store.data.resize(MAXIMA[0] + 100, 7);
    call.store.objects.resize(2 * (MAXIMA[1] + 100), 7);
    call.store
        .links
        .resize(link::NUMBERS * (MAXIMA[2] + 100), 7);
    let scratch = &mut call.scratch;
    scratch.walk.resize(2 * (MAXIMA[1] + 100), 7);
    assert_eq!(split_agrees(&Archive, &call), Ok(()));
    Archive.split_pairpos(&mut call)
}

fn compare(store: &Store) -> Outcome {
    let call = lend::exactly(store, 0, First, &mut Random::new(0));
    all_agree(&Archive, &call)?;
    let split = Split::by(&Archive, &call);
    frame(&split)?;
    as_the_oracle(&split, &mut Tally::default())
}

/// One cut needs 12 + 6 + 4 bytes.
#[test]
fn data_end_at_their_maximum() {
    let with_data = |count: usize| {
        let mut store = all_cuts(1);
        store.data.resize(count, 0);
        store.counts[0] = count as u32;
        answer(&store)
    };
    assert_eq!(with_data(MAXIMA[0] - 22), 0);
    assert_eq!(with_data(MAXIMA[0] - 21), 8);
    assert_eq!(with_data(MAXIMA[0]), 8);
    assert_eq!(with_data(MAXIMA[0] + 1), 1);
}

/// One cut needs 3 objects.
#[test]
fn objects_end_at_their_maximum() {
    let with_objects = |count: usize| {
        let mut store = all_cuts(1);
        let end = store.counts[0];
        store.objects.resize(2 * count, end);
        store.counts[1] = count as u32;
        answer(&store)
    };
    assert_eq!(with_objects(MAXIMA[1] - 3), 0);
    assert_eq!(with_objects(MAXIMA[1] - 2), 8);
    assert_eq!(with_objects(MAXIMA[1]), 8);
    assert_eq!(with_objects(MAXIMA[1] + 1), 1);
}

/// One cut needs one link. An object behind the set has the others.
#[test]
fn links_end_at_their_maximum() {
    let with_links = |count: usize| {
        let mut store = all_cuts(1);
        let behind = edit::add(&mut store, &vec![0; 300_000]);
        let more = count as u32 - store.counts[2];
        let rows = (0..more).flat_map(|position| link::offset(behind, position, 2));
        store.links.extend(rows);
        store.counts[2] = count as u32;
        answer(&store)
    };
    assert_eq!(with_links(MAXIMA[2] - 1), 0);
    assert_eq!(with_links(MAXIMA[2]), 8);
    assert_eq!(with_links(MAXIMA[2] + 1), 1);
}

/// Each cut adds two objects, and the kept table one: 3 + 2 · 32,766 + 1 is 65,536.
#[test]
fn there_are_32_766_cuts_and_no_more() {
    assert_eq!(compare(&all_cuts(32_766)), Ok(()));
    assert_eq!(answer(&all_cuts(32_766)), 0);
    assert_eq!(answer(&all_cuts(32_767)), 8);
}

/// Class 0 has one glyph, and no two neighbours have one class.
///
/// Classes 1 and 2 are the even and the odd glyphs up to a point: alone the even ones are a list
/// that just fits, together they are one run.
fn striped(glyph: u16) -> (u16, u16) {
    match glyph {
        40_000 => (glyph, 0),
        0..65_400 => (glyph, 1 + glyph % 2),
        _ => (glyph, 3 + glyph % 2),
    }
}

/// The kept table's class definition 1 has 65,535 ranges: no list could count its glyphs.
#[test]
fn a_class_definition_over_all_glyphs_has_65_535_ranges() {
    let classes: Vec<(u16, u16)> = (0..=u16::MAX).map(striped).collect();
    let mut store = Store::default();
    let parts = [
        bytes([2, 0, 0x10, 0, 0, 0, 6, 1, 0, 0, 0, 0, 0, 0]),
        bytes([2, 1, 0, 65_535, 0]),
        class_def::write(&classes),
        bytes([2, 0]),
        vec![0; 65_500],
    ];
    for part in parts {
        store.push_object(&part);
    }
    for (position, part) in [(2, 1), (8, 2), (10, 3), (16 + 2 * 5, 4)] {
        store.push_link(0, position, part);
    }
    assert_eq!(compare(&store), Ok(()));

    let call = lend::exactly(&store, 0, First, &mut Random::new(0));
    let split = Split::by(&Archive, &call);
    let class_def1 = edit::child_at(&split.after.store, 0, 8).unwrap();
    assert_eq!(edit::bytes(&split.after.store, class_def1).len(), 393_214);
    assert_eq!(split.new_tables().len(), 1);
}

#[test]
fn writers_are_the_oracles() {
    let all: Vec<(u16, u16)> = (0..=u16::MAX).map(striped).collect();
    assert_eq!(class_def::write(&all).len(), 393_214);
    assert_eq!(class_def::write(&all), oracle::write::class_def(&all));
    for seed in 0..2_000 {
        let mut random = Random::new(seed);
        let classes = random.within(1..=3);
        let gap = random.pick(&[1, 2, 4, 40]);
        let mut glyph_classes = Vec::new();
        let mut glyph = random.below(gap);
        for _ in 0..random.below(60) {
            glyph_classes.push((glyph as u16, random.below(classes) as u16));
            glyph += random.within(1..=gap);
        }
        let glyphs: Vec<u16> = glyph_classes.iter().map(|entry| entry.0).collect();
        let written = coverage::write(&glyphs);
        assert_eq!(written, oracle::write::coverage(&glyphs));
        assert_eq!(coverage::read(&written), Some(glyphs));
        let written = class_def::write(&glyph_classes);
        assert_eq!(written, oracle::write::class_def(&glyph_classes));
        let read = class_def::read(&written).unwrap();
        for (glyph, class) in glyph_classes {
            assert_eq!(read.class_of(glyph), class);
        }
    }
}
