//! The proved functions, by their archive, beside the model and the oracle.

mod common;

use common::{run, run_second};
use differential::{
    check::{all_agree, counted_somehow, lookups_agree, marks_agree, Outcome},
    generate::{self, Case},
    lend, runs, Archive, Call, Edition, Random, Tally,
};
use oracle::Store;

#[test]
fn format_1_is_split_as_the_oracle_splits_it() {
    let tally = run(format1);
    assert_eq!(tally.differences, [0; 2]);
}

#[test]
fn format_2_is_split_as_the_oracle_splits_it() {
    let tally = run(format2);
    assert!(tally.differences.iter().all(|&count| count > 100));
}

#[test]
fn marks_are_split_as_the_oracle_splits_them() {
    let tally = run(marks);
    assert!(tally.differences.iter().all(|&count| count > 100));
}

#[test]
fn new_tables_are_entered_in_lookups() {
    let tally = run(lookups);
    let [applied, left_out] = tally.applied;
    assert!(tally.rewritten > 2_000 && applied > 2_000 && left_out > 300);
    assert!(tally.orders[2] > 1_000);
}

#[test]
fn format_1_by_the_second_edition() {
    run_second(3, format1);
}

/// There are no empty rows, and no empty classes.
#[test]
fn format_2_by_the_second_edition() {
    run_second(2, format2);
}

#[test]
fn marks_by_the_second_edition() {
    run_second(2, marks);
}

#[test]
fn lookups_by_the_second_edition() {
    let tally = run_second(3, lookups);
    assert!(tally.rewritten > 2_000 && tally.applied[0] > 2_000);
}

fn format1(edition: Edition, seed: u64, tally: &mut Tally) -> Outcome {
    runs::whole(&Archive, &generate::format1(seed), edition, seed, tally)
}

fn format2(edition: Edition, seed: u64, tally: &mut Tally) -> Outcome {
    runs::whole(&Archive, &generate::format2(seed), edition, seed, tally)
}

fn marks(edition: Edition, seed: u64, tally: &mut Tally) -> Outcome {
    runs::marks_whole(&Archive, &generate::marks(seed), edition, seed, tally)
}

fn lookups(edition: Edition, seed: u64, tally: &mut Tally) -> Outcome {
    runs::lookups_whole(&Archive, &generate::lookups(seed), edition, seed, tally)
}

fn any_edition(seed: u64) -> Edition {
    Edition::ALL[seed as usize % 2]
}

type Lend = fn(&Store, u32, Edition, &mut Random) -> Call<u32>;

fn lent(lend: Lend, case: &Case, seed: u64) -> Call<u32> {
    lend(
        &case.store,
        case.table,
        any_edition(seed),
        &mut Random::new(seed),
    )
}

/// Each object as the list, whatever its bytes are, and as the table of the list.
#[test]
fn any_object_may_be_the_list() {
    for seed in 0..80 {
        let case = generate::lookups(seed);
        let mut call = lend::in_lookups_amply(&case, any_edition(seed), &mut Random::new(seed));
        for object in 0..call.store.counts[1].min(100) {
            call.lookup_list = object;
            assert_eq!(
                lookups_agree(&Archive, &call),
                Ok(()),
                "seed {seed}, {object}"
            );
            (call.lookup_list, call.table) = (case.list, object);
            assert_eq!(
                lookups_agree(&Archive, &call),
                Ok(()),
                "seed {seed}, {object}"
            );
            call.table = case.table;
        }
    }
}

/// Each object as the table, whatever its bytes are.
#[test]
fn any_object_may_be_the_table() {
    for seed in 0..80 {
        for case in [generate::format1(seed), generate::format2(seed)] {
            let mut call = lent(lend::amply, &case, seed);
            for table in 0..call.store.counts[1].min(100) {
                call.table = table;
                assert_eq!(all_agree(&Archive, &call), Ok(()), "seed {seed}, {table}");
                counted_somehow(&call.store, table);
            }
        }
    }
}

/// The same, as a MarkBasePos table; and a table of one kind as one of the other.
#[test]
fn any_object_may_be_the_table_of_marks() {
    for seed in 0..80 {
        for case in [generate::marks(seed), generate::format1(seed)] {
            let mut call = lent(lend::marks_amply, &case, seed);
            for table in 0..call.store.counts[1].min(100) {
                call.table = table;
                assert_eq!(marks_agree(&Archive, &call), Ok(()), "seed {seed}, {table}");
            }
        }
        let case = generate::marks(seed);
        let call = lent(lend::amply, &case, seed);
        assert_eq!(all_agree(&Archive, &call), Ok(()), "seed {seed}");
    }
}
