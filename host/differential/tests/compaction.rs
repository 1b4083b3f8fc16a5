//! Compactions of stores of all kinds, by the archive and by the model: what is kept, and what it says.

use differential::{
    lend,
    runs::{compacted_whole, Everything},
    Archive, Edition, Model, Tally,
};

/// Whole stores of these seeds, by both editions.
fn run(subject: &impl Everything, seeds: std::ops::Range<u64>) -> Tally {
    let mut tally = Tally::default();
    for seed in seeds {
        for edition in Edition::ALL {
            for (functions, call) in lend::all_kinds(seed, edition) {
                let outcome = compacted_whole(subject, functions, &call, seed, &mut tally);
                assert_eq!(outcome, Ok(()), "{functions:?}, {edition:?}, seed {seed}");
            }
        }
    }
    println!("{tally}");
    tally
}

/// Each store is compacted twice, whole and behind a split. All cases occur.
#[test]
fn the_archive_compacts_as_the_model() {
    let tally = run(&Archive, 0..120);
    assert_eq!(tally.answers[0], 120 * 2 * 4 * 2);
    let [kept, gone] = tally.objects;
    assert!(kept > 10_000 && gone > 10_000);
    let [kept, gone] = tally.orders_left;
    assert!(kept > 1_000 && gone > 1_000);
    let [moved, in_place] = tally.moved;
    assert!(moved > 1_000_000 && in_place > 10);
    assert!(tally.found > 100_000);
}

#[test]
fn the_model_keeps_what_it_must() {
    let tally = run(&Model, 120..160);
    assert!(tally.found > 10_000);
}
