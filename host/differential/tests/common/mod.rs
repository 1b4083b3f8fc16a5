//! Runs over the stores of fixed seeds.

#![allow(dead_code)]

use differential::{check::Outcome, Edition, Tally};

const STORES: usize = 2_600;

/// A subject beside the model and the oracle, on the whole store of each seed, by the first edition. No store is
/// refused, and all cases occur, with totals of 65,534 to 65,537 among them.
pub fn run(whole: impl Fn(Edition, u64, &mut Tally) -> Outcome) -> Tally {
    let tally = run_by(Edition::First, whole);
    assert!(tally.cuts_at_0 > 100);
    tally
}

/// The same by the second edition, beside the model. The editions differ in each of so many ways.
pub fn run_second(ways: usize, whole: impl Fn(Edition, u64, &mut Tally) -> Outcome) -> Tally {
    let tally = run_by(Edition::Second, whole);
    assert_eq!(tally.cuts_at_0, 0);
    assert!(tally.other_cuts > 200 && tally.listed > 500);
    let differing = tally.ways.iter().filter(|&&count| count > 40).count();
    assert_eq!(differing, ways);
    tally
}

fn run_by(edition: Edition, whole: impl Fn(Edition, u64, &mut Tally) -> Outcome) -> Tally {
    let mut tally = Tally::default();
    for seed in 0..STORES as u64 {
        assert_eq!(whole(edition, seed, &mut tally), Ok(()), "seed {seed}");
    }
    println!("{tally}");
    assert_eq!(tally.answers[0], STORES);
    let [cuts @ .., many_cuts] = tally.cut_counts;
    assert!(many_cuts > 10 && cuts.iter().all(|&count| count > 100));
    assert!(tally.at_limit.iter().all(|&count| count > 100));
    assert!(tally.found > 5_000);
    let [orders, kept, _] = tally.orders;
    assert!(orders > 10_000 && kept > 2_000);
    tally
}
