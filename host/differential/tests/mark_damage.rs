//! Damaged calls for MarkBasePos tables are refused by their numbers, and nothing else changes: by the
//! model, and by the archive as by the model.

#[path = "common/damaged.rs"]
mod damaged;

use damaged::Kind;
use differential::{
    check::{
        frame, marks_agree, refused_or_marks_as_the_oracle, refused_or_marks_guaranteed, Split,
    },
    damage, generate, lend, Archive, Attachment, Call, Edition, MarkSubject, Marks, Model, Random,
    Tally,
};

const STORES: u64 = 160;

const MARKS: Kind = Kind {
    calls,
    damages: damage::marks,
    order: &[12, 1, 2, 3, 4, 5, 6, 7, 8],
    scramble: damage::scramble,
    answers,
    split: |call| Split::by(&Marks(&Model), call),
    frame,
    other_formats: &[0, 2, 3, 0x0100, 0x0201, 0xFFFF],
};

fn calls() -> Vec<(Call<u32>, Random)> {
    let calls = (0..STORES).map(|seed| {
        let case = generate::marks(seed);
        let mut random = Random::new(!seed);
        let edition = random.pick(&Edition::ALL);
        let call = lend::marks_exactly(&case.store, case.table, edition, &mut random);
        (call, random)
    });
    calls.collect()
}

/// What both answer.
fn answers(call: &Call<u32>) -> [u32; 3] {
    assert_eq!(marks_agree(&Archive, call), Ok(()));
    let (store, table) = (&call.store, call.table);
    [
        Model.split_markbasepos(&mut call.clone()),
        Model.cut_plan_markbasepos(&mut call.to_plan()),
        Model.read_mark(store, table, [0, 0], &mut Attachment::default()),
    ]
}

#[test]
fn what_is_exactly_enough_is_enough() {
    MARKS.what_is_exactly_enough_is_enough();
}

#[test]
fn each_damage_is_refused_by_its_number() {
    MARKS.each_damage_is_refused_by_its_number();
}

#[test]
fn the_first_that_applies_decides() {
    MARKS.the_first_that_applies_decides();
}

#[test]
fn an_edition_that_is_none_comes_first() {
    MARKS.an_edition_that_is_none_comes_first();
}

#[test]
fn another_format_is_nothing_to_split() {
    MARKS.another_format_is_nothing_to_split();
}

/// Whatever a call is lent, it is refused and nothing changes, or it is split as by the oracle, or keeps what
/// the second edition guarantees.
#[test]
fn anything_may_be_wrong() {
    let mut tally = Tally::default();
    MARKS.anything_may_be_wrong(|call, split| {
        assert_eq!(marks_agree(&Archive, call), Ok(()));
        let settled = match call.edition {
            2 => refused_or_marks_guaranteed(&Archive, split, &mut tally),
            _ => refused_or_marks_as_the_oracle(split, &mut tally),
        };
        assert_eq!(settled, Ok(()));
    });
    println!("{tally}");
    let [answers @ .., _, _, _, no_edition] = tally.answers;
    assert!(no_edition > 0 && answers.iter().all(|&count| count > 0));
}
