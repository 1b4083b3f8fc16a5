//! Damaged calls that enter new tables in lookups are refused by their numbers, and nothing else changes: by
//! the model, and by the archive as by the model.

#[path = "common/damaged.rs"]
mod damaged;

use damaged::Kind;
use differential::{
    check::{applied_stay, entered, lookups_agree, Outcome, Split},
    damage, generate, lend, Archive, Call, Edition, InLookups, LookupSubject, Model, Pair, Random,
    Subject, Tally,
};

const STORES: u64 = 160;

const LOOKUPS: Kind = Kind {
    calls,
    damages: damage::lookups,
    order: &[12, 1, 2, 9, 3, 4, 5, 6, 7, 11, 10, 8],
    scramble: damage::scramble_lookups,
    answers,
    split: |call| Split::by(&InLookups(&Model), call),
    frame,
    other_formats: &[0, 3, 0x0100, 0x0201, 0xFFFF],
};

fn calls() -> Vec<(Call<u32>, Random)> {
    let calls = (0..STORES).map(|seed| {
        let mut random = Random::new(!seed);
        let edition = random.pick(&Edition::ALL);
        let case = generate::lookups(seed);
        let call = lend::in_lookups_exactly(&case, edition, &mut random);
        (call, random)
    });
    calls.collect()
}

/// What both answer.
fn answers(call: &Call<u32>) -> [u32; 3] {
    assert_eq!(lookups_agree(&Archive, call), Ok(()));
    let (store, table) = (&call.store, call.table);
    [
        Model.split_in_lookups(&mut call.clone()),
        Model.cut_plan(&mut call.to_plan()),
        Model.read_pair(store, table, [0, 0], &mut Pair::default()),
    ]
}

fn frame(split: &Split) -> Outcome {
    entered(&Model, split, &mut Tally::default())
}

#[test]
fn what_is_exactly_enough_is_enough() {
    LOOKUPS.what_is_exactly_enough_is_enough();
}

#[test]
fn each_damage_is_refused_by_its_number() {
    LOOKUPS.each_damage_is_refused_by_its_number();
}

#[test]
fn the_first_that_applies_decides() {
    LOOKUPS.the_first_that_applies_decides();
}

#[test]
fn an_edition_that_is_none_comes_first() {
    LOOKUPS.an_edition_that_is_none_comes_first();
}

#[test]
fn another_format_is_nothing_to_split() {
    LOOKUPS.another_format_is_nothing_to_split();
}

/// Whatever a call is lent, it is refused and nothing changes, or lookups say what they said before.
#[test]
fn anything_may_be_wrong() {
    let mut tally = Tally::default();
    LOOKUPS.anything_may_be_wrong(|call, split| {
        assert_eq!(lookups_agree(&Archive, call), Ok(()));
        tally.answers[split.answer as usize] += 1;
        let mut random = Random::new(0);
        assert_eq!(applied_stay(split, &mut random, &mut tally), Ok(()));
    });
    println!("{tally}");
    let may_be_rare = [5, 10];
    let common = (0..13).filter(|answer| !may_be_rare.contains(answer));
    assert!(common
        .map(|answer| tally.answers[answer])
        .all(|count| count > 0));
}
