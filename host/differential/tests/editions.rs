//! The second edition on stores made by hand, through the archive and the model: where it differs from the
//! first, that it keeps to the limit, and that checks find what does not.

use differential::{
    by_hand::{format1, format1_slots, format2, lengthen, marks, push_anchor, BASE_ARRAY},
    check::{
        all_agree, counted_alike, marks_agree, marks_guaranteed, pairs_guaranteed, split_agrees,
        Split,
    },
    edit, generate, lend,
    model::{answers, class_def, measure::Measured, numbers::bytes, opened::Opened},
    Archive, Attachment, Call,
    Edition::{self, First, Second},
    MarkSubject, Marks, Model, Pair, Random, Subject, Tally,
};
use oracle::Store;
use splitter::Kind;

const TABLE: u32 = 0;

/// Where each edition cuts a PairPos table, by the archive as by the model. What the second guarantees holds.
fn cuts(store: &Store) -> [Vec<u16>; 2] {
    Edition::ALL.map(|edition| {
        let call = lend::exactly(store, TABLE, edition, &mut Random::new(0));
        assert_eq!(all_agree(&Archive, &call), Ok(()));
        let split = Split::by(&Archive, &call);
        assert_eq!(counted_alike(Kind::Pairs, &split), Ok(()));
        if edition == Second {
            let guaranteed = pairs_guaranteed(&Archive, &split, &mut Tally::default());
            assert_eq!(guaranteed, Ok(()));
        }
        split.places
    })
}

/// The same of a MarkBasePos table.
fn mark_cuts(store: &Store) -> [Vec<u16>; 2] {
    Edition::ALL.map(|edition| {
        let call = lend::marks_exactly(store, TABLE, edition, &mut Random::new(0));
        assert_eq!(marks_agree(&Archive, &call), Ok(()));
        let split = Split::by(&Marks(&Archive), &call);
        assert_eq!(counted_alike(Kind::Marks, &split), Ok(()));
        if edition == Second {
            let guaranteed = marks_guaranteed(&Archive, &split, &mut Tally::default());
            assert_eq!(guaranteed, Ok(()));
        }
        split.places
    })
}

/// A format 1 table of sets of these lengths, where 0 is an empty slot, under a coverage of 204 bytes.
fn sets(lengths: &[usize]) -> Store {
    let glyphs: Vec<u16> = (0..100).map(|glyph| 3 * glyph).collect();
    let mut store = format1_slots(&glyphs, lengths.len());
    for (slot, &length) in lengths.iter().enumerate() {
        if length > 0 {
            let set = store.push_object(&bytes([0]));
            store.push_link(0, 10 + 2 * slot as u32, set);
            lengthen(&mut store, set, length);
        }
    }
    store
}

#[test]
fn w9_and_w10() {
    assert_eq!(cuts(&format1(&[10], &[65_517])), [[], []]);
    assert_eq!(cuts(&format1(&[10], &[65_518])), [vec![0], vec![]]);
    let mut store = format1(&[10, 20, 30], &[100, 30_000, 20_000]);
    let d = store.push_object(&[0; 40_000]);
    store.push_link(2, 2, d);
    store.push_link(3, 2, d);
    assert_eq!(cuts(&store), [vec![1], vec![1, 2]]);
}

/// An empty slot costs 2 bytes and 2 of coverage, and is tested; there is never a cut at 0.
#[test]
fn empty_slots_and_item_0() {
    assert_eq!(cuts(&sets(&[40_000, 0, 0, 25_505])), [[], []]);
    assert_eq!(cuts(&sets(&[40_000, 0, 0, 25_506])), [vec![], vec![3]]);
    assert_eq!(cuts(&sets(&[65_513, 0])), [[], []]);
    assert_eq!(cuts(&sets(&[65_514, 0])), [vec![], vec![1]]);
    assert_eq!(cuts(&sets(&[65_518])), [vec![0], vec![]]);
    assert_eq!(cuts(&sets(&[65_518, 0, 0, 65_509])), [vec![0, 3], vec![1]]);
    assert_eq!(
        cuts(&sets(&[65_518, 0, 0, 65_510])),
        [vec![0, 3], vec![1, 3]]
    );
    assert_eq!(cuts(&sets(&[0, 65_518])), [vec![1], vec![1]]);
    assert_eq!(cuts(&sets(&[])), [[], []]);
}

/// Sets of 40,000, 20,000 and so many bytes, of which the last two lead to 20,000 bytes: these are seen again
/// behind the cut by the second edition alone.
#[test]
fn what_the_set_at_a_cut_reaches_is_seen_after() {
    for (length, second) in [(25_513, vec![1]), (25_514, vec![1, 2])] {
        let mut store = format1(&[10, 20, 30], &[40_000, 20_000, length]);
        let shared = store.push_object(&[0; 20_000]);
        store.push_link(3, 4, shared);
        store.push_link(4, 4, shared);
        assert_eq!(cuts(&store), [vec![1, 2], second]);
    }
}

/// Rows of no bytes under no glyphs, where row i leads to its device of that length.
fn rows(lengths: &[usize]) -> Store {
    let shape = [lengths.len() as u16, 1];
    let mut store = format2([0x0010, 0], shape, &[], &bytes([2, 0]));
    for (row, &length) in lengths.iter().enumerate() {
        let device = store.push_object(&vec![0; length]);
        store.push_link(0, 16 + 2 * row as u32, device);
    }
    store
}

#[test]
fn rows_by_both_editions() {
    assert_eq!(cuts(&rows(&[66_000, 1])), [vec![0, 1], vec![1]]);
    let mut shared = rows(&[40_000, 40_000, 0]);
    let device = edit::child_at(&shared, TABLE, 18).unwrap();
    edit::link(&mut shared, TABLE, 20, device);
    assert_eq!(cuts(&shared), [vec![1, 2], vec![1]]);
}

#[test]
fn classes_by_both_editions() {
    let with_anchors = |lengths: [usize; 3]| {
        let mut store = marks(3, &[0, 1, 2], 1);
        for (class, length) in (0..).zip(lengths) {
            push_anchor(&mut store, BASE_ARRAY, 2 + 2 * class, length);
        }
        store
    };
    assert_eq!(
        mark_cuts(&with_anchors([65_535, 6, 6])),
        [vec![0, 1], vec![1]]
    );
    assert_eq!(
        mark_cuts(&with_anchors([40_000, 40_000, 6])),
        [vec![1], vec![1]]
    );
    // Class 1 shares with class 0, which the first edition then does not count beside class 2.
    let mut store = with_anchors([40_000, 30_000, 20_000]);
    let shared = edit::child_at(&store, BASE_ARRAY, 2).unwrap();
    let second = edit::child_at(&store, BASE_ARRAY, 4).unwrap();
    edit::link(&mut store, second, 0, shared);
    assert_eq!(mark_cuts(&store), [vec![1], vec![1, 2]]);
}

/// In format 2 a list of cuts may be shorter than the second edition's: its estimate falls where a class fills
/// another's gaps. Even glyphs below 20,000 are in class 1, and odd ones in class 2.
#[test]
fn rows_that_fill_gaps_are_not_cut_least_often() {
    let classes: Vec<(u16, u16)> = (0..20_000).map(|glyph| (glyph, 1 + glyph % 2)).collect();
    let mut store = format2([0x0010, 0], [4, 1], &classes, &class_def::write(&[]));
    for (row, length) in [(0, 42_000), (2, 25_000), (3, 25_000)] {
        let device = store.push_object(&vec![0; length]);
        store.push_link(0, 16 + 2 * row, device);
    }
    assert_eq!(cuts(&store)[1], [2, 3]);
    let table = answers::open(&store, TABLE).unwrap().unwrap();
    let measured = Measured::of(&table);
    assert!(measured.is_within(&[2, 3]) && measured.is_within(&[1]));
    assert_eq!(measured.fewest_cuts(), 1);
    assert!(!measured.is_within(&[]) && !measured.is_within(&[2]) && !measured.is_within(&[3]));
    let lists = measured.lists_within();
    assert!(lists.contains(&vec![1]) && lists.contains(&vec![0, 1]));
}

/// A subject that knows one edition alone, whatever it is asked for.
struct Always(Edition);

impl Subject for Always {
    fn split_pairpos(&self, call: &mut Call<u32>) -> u32 {
        self.by_its_own(call, |call| Model.split_pairpos(call))
    }

    fn cut_plan(&self, call: &mut Call<u16>) -> u32 {
        self.by_its_own(call, |call| Model.cut_plan(call))
    }

    fn read_pair(&self, store: &Store, table: u32, glyphs: [u16; 2], pair: &mut Pair) -> u32 {
        Model.read_pair(store, table, glyphs, pair)
    }
}

impl MarkSubject for Always {
    fn split_markbasepos(&self, call: &mut Call<u32>) -> u32 {
        self.by_its_own(call, |call| Model.split_markbasepos(call))
    }

    fn cut_plan_markbasepos(&self, call: &mut Call<u16>) -> u32 {
        self.by_its_own(call, |call| Model.cut_plan_markbasepos(call))
    }

    fn read_mark(
        &self,
        store: &Store,
        table: u32,
        glyphs: [u16; 2],
        attachment: &mut Attachment,
    ) -> u32 {
        Model.read_mark(store, table, glyphs, attachment)
    }
}

impl Always {
    fn by_its_own<N>(&self, call: &mut Call<N>, ask: fn(&mut Call<N>) -> u32) -> u32 {
        let asked = std::mem::replace(&mut call.edition, self.0.number());
        let answer = ask(call);
        call.edition = asked;
        answer
    }
}

/// A subject that takes any edition is found: it cuts elsewhere, or where it must refuse.
#[test]
fn another_edition_is_found() {
    let mut elsewhere = 0;
    for seed in 0..60 {
        let case = generate::format1(seed);
        for [asked, given] in [[First, Second], [Second, First]] {
            let mut call = lend::amply(&case.store, case.table, asked, &mut Random::new(seed));
            let table = answers::open(&call.store, call.table).unwrap().unwrap();
            let differ = table.cut_places(First) != table.cut_places(Second);
            let subject = Always(given);
            assert_eq!(split_agrees(&subject, &call).is_err(), differ);
            elsewhere += usize::from(differ);
            for other in [0, 3, u32::MAX] {
                call.edition = other;
                assert!(all_agree(&subject, &call).is_err());
                assert!(marks_agree(&subject, &call).is_err());
            }
        }
    }
    assert!(elsewhere > 20, "{elsewhere}");
}

/// Cuts of the first edition do not keep what the second guarantees, where they are others: a table is past the
/// limit, there are more of them than there have to be, or a table is cut again.
#[test]
fn what_is_not_guaranteed_is_found() {
    let [mut found, mut others] = [0; 2];
    for seed in 0..400 {
        let case = generate::format1(seed);
        let call = lend::amply(&case.store, case.table, First, &mut Random::new(seed));
        let mut split = Split::by(&Model, &call);
        for call in [&mut split.before, &mut split.after] {
            call.edition = Second.number();
        }
        let table = answers::open(&call.store, call.table).unwrap().unwrap();
        let is_other = table.cut_places(First) != table.cut_places(Second);
        let is_found = pairs_guaranteed(&Model, &split, &mut Tally::default()).is_err();
        assert!(!is_found || is_other, "seed {seed}");
        found += usize::from(is_found);
        others += usize::from(is_other);
    }
    println!("{found} of {others} that are cut elsewhere");
    assert!(found > 100 && others > 100);
}
