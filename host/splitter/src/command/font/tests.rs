//! Small fonts by hand, whole and damaged.

mod made;
mod marks;

use super::*;
use made::{collection, extension, font, gpos, lookup, mark_table, pair_rows, pair_sets, words};
use splitter::{
    cut_plan,
    font::{lengths, load_pairs, Bytes, Lookups},
    read_pair,
    Edition::First,
    PairValues, Store, Values,
};

/// All that the command does with a font but to show it.
fn look_into(file: &[u8]) -> Result<Vec<Seen>, FontError> {
    look_into_by(file, &mut Scratch::new())
}

fn look_into_by(file: &[u8], scratch: &mut Scratch) -> Result<Vec<Seen>, FontError> {
    Ok(see_all(&FontTables::read(file)?, First, scratch))
}

/// The store of the only subtable of a lookup for pairs.
fn load(subtable: Vec<u8>) -> Result<Store, FontError> {
    let gpos = gpos(&[lookup(2, &[subtable])]);
    let gpos = Bytes::new(&gpos);
    let lookups = Lookups::read(gpos, Kind::Pairs)?;
    load_pairs(gpos, lookups.subtables[0].start)
}

/// Two lookups for pairs among others: one as it is, and one of extensions, which has a table for marks
/// too.
fn small_font() -> Vec<u8> {
    let extensions = [
        extension(2, &pair_rows(true)),
        extension(4, &mark_table()),
        extension(3, &[]),
    ];
    let lookups = [
        lookup(1, &[words(&[1, 0, 0])]),
        lookup(2, &[pair_sets(), pair_rows(false)]),
        lookup(9, &extensions),
    ];
    font(&[(b"GDEF", words(&[1, 0])), (b"GPOS", gpos(&lookups))])
}

#[test]
fn a_table_of_sets() {
    let store = load(pair_sets()).unwrap();
    let view = store.view();
    // Table, coverage, two sets, of which one is used twice, and two devices.
    assert_eq!(view.counts(), [72, 6, 7]);
    assert_eq!(view.child(0, 10), view.child(0, 16));
    assert_eq!(view.child(0, 14), None);
    let set = view.child(0, 10).unwrap();
    let [device, variation] = [6, 8].map(|position| view.child(set, position));
    assert_eq!(view.child(set, 16), device);
    assert_eq!(view.object(device.unwrap()).unwrap().len(), 8);
    assert_eq!(view.object(variation.unwrap()).unwrap().len(), 6);
    let pair = PairValues {
        first: Values {
            x_advance: -30,
            x_advance_device: device,
            ..Values::default()
        },
        second: Values {
            x_placement_device: variation,
            ..Values::default()
        },
    };
    for first in [5, 9] {
        assert_eq!(read_pair(&store, 0, first, 70), Ok(Some(pair)));
    }
    assert_eq!(read_pair(&store, 0, 8, 70), Ok(None));
}

#[test]
fn a_table_of_rows() {
    let store = load(pair_rows(false)).unwrap();
    assert_eq!(store.view().counts(), [68, 5, 5]);
    let pair = read_pair(&store, 0, 6, 70).unwrap().unwrap();
    assert_eq!(pair.first.x_advance, 21);
    assert_eq!(pair.second.y_placement_device, store.view().child(0, 30));
    assert!(pair.second.y_placement_device.is_some());
    assert_eq!(read_pair(&store, 0, 8, 70), Ok(None));
}

/// A class definition at the place of the coverage is the same object.
#[test]
fn parts_are_shared() {
    let view = load(pair_rows(true)).unwrap();
    let view = view.view();
    assert_eq!(view.counts(), [58, 4, 5]);
    assert_eq!(view.child(0, 2), view.child(0, 10));
}

#[test]
fn lookups_of_both_kinds() {
    let file = small_font();
    let seen = look_into(&file).unwrap();
    let places: Vec<_> = seen
        .iter()
        .map(|seen| {
            let [Listed { lookup, subtable }] = seen.table.listed[..] else {
                panic!("listed once")
            };
            (seen.table.kind, lookup, subtable)
        })
        .collect();
    let (pairs, marks) = (Kind::Pairs, Kind::Marks);
    let expected = [(pairs, 1, 0), (pairs, 1, 1), (pairs, 2, 0), (marks, 2, 1)];
    assert_eq!(places, expected);
    let looks: Vec<_> = seen
        .iter()
        .map(|seen| {
            assert_eq!(seen.cuts, Ok(Vec::new()));
            let look = seen.look.as_ref().unwrap();
            (look.format, look.items, look.glyphs, look.all_bytes)
        })
        .collect();
    let expected = [(1, 4, 4, 72), (2, 2, 3, 68), (2, 2, 3, 58), (1, 2, 2, 82)];
    assert_eq!(looks, expected);
    let found = in_words(&FontTables::read(&file).unwrap());
    let expected = "3 lookups in GPOS: 2 for pairs, with 3 subtables; \
                    1 for marks on bases, with 1 subtable";
    assert_eq!(found, expected);
}

/// Subtables of one lookup in order, each kind by itself.
#[test]
fn lookups_and_what_a_split_makes_of_them() {
    let mut seen = look_into(&small_font()).unwrap();
    let words = |seen: &[Seen]| -> Vec<String> {
        let lookups = lookups::by_lookup(seen);
        lookups.iter().map(|lookup| lookup.words()).collect()
    };
    let as_they_are = ["0, 1: as they are", "0: as they are", "1: as they are"];
    assert_eq!(words(&seen), as_they_are);
    seen[0].cuts = Ok(vec![3, 7]);
    seen[3].cuts = Ok(vec![1]);
    let cut = [
        "0, 1: 4 in their place, 0 becomes 3",
        "0: as they are",
        "1: 2 in their place, 1 becomes 2",
    ];
    assert_eq!(words(&seen), cut);
    seen[1].cuts = Ok(vec![0; 65_532]);
    assert_eq!(
        words(&seen)[0],
        "0, 1: refused, 65,536 are too many",
        "a lookup counts up to 65,535"
    );
    seen[1].cuts = Ok(vec![0; 65_531]);
    assert!(words(&seen)[0].ends_with("0 becomes 3, 1 becomes 65,532"));
    seen[1].cuts = Err(FontError::Store(Refusal::BadParts));
    assert_eq!(words(&seen)[0], "0, 1: refused, 1 of 2");
}

#[test]
fn the_first_font_of_a_collection() {
    let fonts = [small_font(), font(&[])];
    let seen = look_into(&collection(&fonts)).unwrap();
    assert_eq!(seen.len(), 4);
    assert!(seen.iter().all(|seen| seen.cuts.is_ok()));
    let none = look_into(&collection(&[])).map(|seen| seen.len());
    assert_eq!(none, Err(FontError::NoFonts));
}

#[test]
fn fonts_without_pairs() {
    assert_eq!(look_into(&font(&[])).unwrap().len(), 0);
    let empty = font(&[(b"GPOS", words(&[1, 0, 0, 0, 0]))]);
    assert_eq!(look_into(&empty).unwrap().len(), 0);
}

#[test]
fn files_that_are_no_fonts() {
    let error = |file: &[u8]| look_into(file).map(|seen| seen.len()).unwrap_err();
    assert_eq!(error(b"wOFF, packed"), FontError::Packed);
    assert_eq!(error(b"wOF2, packed"), FontError::Packed);
    assert_eq!(error(b"a letter to a friend"), FontError::NotAFont);
    assert!(matches!(error(b""), FontError::Ends { at: 0, .. }));
    let next = font(&[(b"GPOS", words(&[2, 0, 0, 0, 0]))]);
    assert_eq!(error(&next), FontError::Version { major: 2 });
}

/// The last of three sets starts within the limit and ends past it.
#[test]
fn cut_places_on_disk() {
    let mut table = words(&[1, 16, 4, 0, 3, 26, 30_026, 60_026]);
    table.extend(words(&[1, 3, 5, 7, 9]));
    for _ in 0..3 {
        let records = (0..7_499).flat_map(|second| [second, 1]);
        table.extend(words(
            &[7_499].into_iter().chain(records).collect::<Vec<_>>(),
        ));
        table.extend([0; 2]);
    }
    let store = load(table).unwrap();
    assert_eq!(store.view().counts(), [16 + 10 + 3 * 29_998, 5, 4]);
    let cuts = cut_plan(&store, TABLE, First, &mut Scratch::new());
    assert_eq!(cuts, Ok(vec![2]));
}

/// Devices of every format, and one that says nothing sensible.
#[test]
fn lengths_of_devices() {
    let len = |words: [u16; 3]| lengths::device(Bytes::new(&made::words(&words)), 0);
    assert_eq!(len([11, 11, 1]), Ok(8));
    assert_eq!(len([11, 18, 1]), Ok(8));
    assert_eq!(len([11, 19, 1]), Ok(10));
    assert_eq!(len([11, 15, 2]), Ok(10));
    assert_eq!(len([11, 13, 3]), Ok(10));
    assert_eq!(len([0, 65_535, 3]), Ok(6 + 65_536));
    assert_eq!(len([3, 4, 0x8000]), Ok(6));
    assert_eq!(len([12, 11, 1]), Ok(6));
    assert_eq!(len([11, 12, 4]), Ok(6));
}

/// Parts that cannot be read are loaded as they are, and refused by name.
#[test]
fn refusals() {
    let refusal = |store: Store| cut_plan(&store, 0, First, &mut Scratch::new()).unwrap_err();
    let no_coverage = words(&[1, 0, 4, 0, 0]);
    assert_eq!(refusal(load(no_coverage).unwrap()), Refusal::BadParts);
    let odd_coverage = words(&[1, 10, 4, 0, 0, 7]);
    assert_eq!(refusal(load(odd_coverage).unwrap()), Refusal::BadParts);
    let few_glyphs = words(&[1, 14, 4, 0, 2, 0, 0, 1, 1, 5]);
    assert_eq!(refusal(load(few_glyphs).unwrap()), Refusal::FewGlyphs);
    let unsorted = words(&[1, 12, 4, 0, 1, 18, 1, 1, 5, 2, 8, 1, 7, 2]);
    assert_eq!(refusal(load(unsorted).unwrap()), Refusal::UnsortedSets);
}

/// A list of lookups that leads to the same long lookup again and again is soon given up.
#[test]
fn subtables_without_end() {
    let mut gpos = words(&[1, 0, 0, 0, 10, 60_000]);
    gpos.extend(words(&[60_000; 60_000]));
    gpos.extend([0; 10_000]);
    let lookup = 10 + 60_000;
    gpos.splice(lookup..lookup + 6, words(&[2, 0, 60_000]));
    gpos.resize(lookup + 6 + 2 * 60_000, 0);
    let read = Lookups::read(Bytes::new(&gpos), Kind::Pairs);
    assert_eq!(read, Err(FontError::ManySubtables));
}

/// The same, where the subtables are extensions to another kind, of which none is taken.
#[test]
fn extensions_without_end() {
    let mut gpos = words(&[1, 0, 0, 0, 10, 30_000]);
    gpos.extend(words(&[60_000; 30_000]));
    gpos.resize(10 + 60_000, 0);
    gpos.extend(words(&[9, 0, 60_000]));
    gpos.resize(10 + 60_000 + 6 + 2 * 60_000, 0);
    let read = Lookups::read(Bytes::new(&gpos), Kind::Pairs);
    assert_eq!(read, Err(FontError::ManySubtables));
}

/// A table that is listed a thousand times is loaded once and shown once.
#[test]
fn a_table_that_is_listed_often() {
    let mut often = words(&[2, 0, 1_000]);
    often.extend(words(&[6 + 2_000; 1_000]));
    often.extend(words(&[1, 0, 4, 0, 0]));
    let file = font(&[(b"GPOS", gpos(&[often]))]);
    let tables = FontTables::read(&file).unwrap();
    let of_kind = OfKind {
        kind: Kind::Pairs,
        lookups: 1,
        subtables: 1_000,
    };
    assert_eq!(tables.of_kind[0], of_kind);
    let seen = look_into(&file).unwrap();
    assert_eq!(seen.len(), 1);
    let lines = seen[0].lines();
    assert_eq!(lines.last().unwrap().trim(), "listed 999 times more");
    assert_eq!(lines.concat().matches("no link at position 2").count(), 1);
    let (_, table) = Store::from_font(&file, 0, 999).unwrap();
    assert_eq!(table, Table::pairs(TABLE));
    let none = Store::from_font(&file, 0, 1_000);
    let (lookup, subtable) = (0, 1_000);
    assert_eq!(none, Err(FontError::NoSubtable { lookup, subtable }));
}

/// Tables that lie one over the other, each as large as the file: soon no more of them is loaded.
#[test]
fn tables_over_one_another() {
    let mut lookup = words(&[2, 0, 2_000]);
    let starts: Vec<u16> = (0..2_000).map(|table| 5_000 + 10 * table).collect();
    lookup.extend(words(&starts));
    lookup.resize(5_000, 0);
    // Each has 30,000 pair sets, which all lie behind it.
    for _ in 0..2_000 {
        lookup.extend(words(&[1, 60_000, 4, 0, 30_000]));
    }
    lookup.extend(words(&[60_000; 40_000]));
    lookup.resize(200_000, 1);
    let file = font(&[(b"GPOS", gpos(&[lookup]))]);
    let seen = look_into(&file).unwrap();
    assert_eq!(seen.len(), 2_000);
    let given_up = |seen: &&Seen| seen.cuts == Err(FontError::TooMuch);
    let loaded = seen.iter().position(|seen| given_up(&seen)).unwrap();
    assert!((100..1_900).contains(&loaded), "{loaded}");
    assert!(seen[loaded..].iter().all(|seen| given_up(&seen)));
}

/// How many lines are shown of a font, or the sentence about it.
fn shown(file: &[u8], scratch: &mut Scratch) -> Result<usize, String> {
    let seen = look_into_by(file, scratch).map_err(|error| error.to_string())?;
    Ok(seen.iter().map(|seen| seen.lines().len()).sum())
}

/// Fonts that end anywhere get a sentence, or are whole as far as it matters.
#[test]
fn fonts_that_end_anywhere() {
    let mut scratch = Scratch::new();
    for file in [small_font(), collection(&[small_font()])] {
        assert_eq!(shown(&file, &mut scratch), Ok(4));
        for len in 0..file.len() {
            assert!(shown(&file[..len], &mut scratch).is_err(), "{len}");
        }
    }
}

/// Any byte may be any other.
#[test]
fn fonts_with_a_damaged_byte() {
    let file = collection(&[small_font()]);
    let mut scratch = Scratch::new();
    let mut errors = 0;
    for place in 0..file.len() {
        for change in [1, 0x80, 0xFF, file[place], !file[place], 7] {
            let mut file = file.clone();
            file[place] ^= change;
            errors += usize::from(shown(&file, &mut scratch).is_err());
        }
    }
    assert!(errors > 50);
}
