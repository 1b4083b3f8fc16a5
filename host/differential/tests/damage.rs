//! Damaged calls are refused by their numbers, and nothing else changes: by the model, and by the
//! archive as by the model.

#[path = "common/damaged.rs"]
mod damaged;

use damaged::Kind;
use differential::{
    check::{all_agree, frame, refused_or_as_the_oracle, refused_or_pairs_guaranteed, Split},
    damage, generate, lend,
    model::{class_def, coverage, numbers},
    Archive, Call, Edition, Model, Pair, Random, Subject, Tally,
};

const STORES: u64 = 80;

const PAIRS: Kind = Kind {
    calls,
    damages: damage::all,
    order: &[12, 1, 2, 3, 4, 5, 6, 7, 11, 8],
    scramble: damage::scramble,
    answers,
    split: |call| Split::by(&Model, call),
    frame,
    other_formats: &[0, 3, 0x0100, 0x0201, 0xFFFF],
};

/// Calls of both formats.
fn calls() -> Vec<(Call<u32>, Random)> {
    let generators = [generate::format1, generate::format2];
    let seeds = (0..STORES).flat_map(move |seed| generators.map(|generate| (seed, generate)));
    let calls = seeds.map(|(seed, generate)| {
        let case = generate(seed);
        let mut random = Random::new(!seed);
        let edition = random.pick(&Edition::ALL);
        let call = lend::exactly(&case.store, case.table, edition, &mut random);
        (call, random)
    });
    calls.collect()
}

/// What both answer.
fn answers(call: &Call<u32>) -> [u32; 3] {
    assert_eq!(all_agree(&Archive, call), Ok(()));
    let (store, table) = (&call.store, call.table);
    [
        Model.split_pairpos(&mut call.clone()),
        Model.cut_plan(&mut call.to_plan()),
        Model.read_pair(store, table, [0, 0], &mut Pair::default()),
    ]
}

#[test]
fn what_is_exactly_enough_is_enough() {
    PAIRS.what_is_exactly_enough_is_enough();
}

#[test]
fn each_damage_is_refused_by_its_number() {
    PAIRS.each_damage_is_refused_by_its_number();
}

#[test]
fn the_first_that_applies_decides() {
    PAIRS.the_first_that_applies_decides();
}

#[test]
fn an_edition_that_is_none_comes_first() {
    PAIRS.an_edition_that_is_none_comes_first();
}

#[test]
fn another_format_is_nothing_to_split() {
    PAIRS.another_format_is_nothing_to_split();
}

#[test]
fn unreadable_parts_are_unreadable() {
    for words in damage::COVERAGES {
        let bytes = numbers::bytes(words.iter().copied());
        assert_eq!(coverage::read(&bytes), None, "{words:?}");
    }
    for words in damage::CLASS_DEFS {
        let bytes = numbers::bytes(words.iter().copied());
        assert!(class_def::read(&bytes).is_none(), "{words:?}");
    }
}

/// Whatever a call is lent, it is refused and nothing changes, or it is split as by the oracle, or keeps what
/// the second edition guarantees.
#[test]
fn anything_may_be_wrong() {
    let mut tally = Tally::default();
    PAIRS.anything_may_be_wrong(|call, split| {
        assert_eq!(all_agree(&Archive, call), Ok(()));
        let settled = match call.edition {
            2 => refused_or_pairs_guaranteed(&Archive, split, &mut tally),
            _ => refused_or_as_the_oracle(split, &mut tally),
        };
        assert_eq!(settled, Ok(()));
    });
    println!("{tally}");
    let [answers @ .., _, _, unsorted, no_edition] = tally.answers;
    let answers = answers.iter().chain([&unsorted, &no_edition]);
    assert!(answers.into_iter().all(|&count| count > 0));
}
