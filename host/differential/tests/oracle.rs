//! The model against the oracle, over stores of fixed seeds; and lookups before and after a split.

mod common;

use common::run;
use differential::{check::Outcome, generate, runs, Edition, Model, Tally};

#[test]
fn format_1_is_split_as_the_oracle_splits_it() {
    let tally = run(format1);
    assert_eq!(tally.differences, [0; 2]);
}

#[test]
fn format_2_is_split_as_the_oracle_splits_it() {
    let tally = run(format2);
    assert!(tally.differences.iter().all(|&count| count > 100));
}

#[test]
fn marks_are_split_as_the_oracle_splits_them() {
    let tally = run(marks);
    assert!(tally.differences.iter().all(|&count| count > 100));
}

#[test]
fn new_tables_are_entered_in_lookups() {
    let tally = run(lookups);
    let [applied, left_out] = tally.applied;
    assert!(tally.rewritten > 2_000 && applied > 2_000 && left_out > 300);
}

fn format1(edition: Edition, seed: u64, tally: &mut Tally) -> Outcome {
    runs::whole(&Model, &generate::format1(seed), edition, seed, tally)
}

fn format2(edition: Edition, seed: u64, tally: &mut Tally) -> Outcome {
    runs::whole(&Model, &generate::format2(seed), edition, seed, tally)
}

fn marks(edition: Edition, seed: u64, tally: &mut Tally) -> Outcome {
    runs::marks_whole(&Model, &generate::marks(seed), edition, seed, tally)
}

fn lookups(edition: Edition, seed: u64, tally: &mut Tally) -> Outcome {
    runs::lookups_whole(&Model, &generate::lookups(seed), edition, seed, tally)
}
