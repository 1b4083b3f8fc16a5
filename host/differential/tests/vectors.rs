//! The stored answers, which the Rattle program `vectors` replays.

use differential::vectors::{self, Sample};
use std::{fs, path::Path};

fn sample() -> Sample {
    vectors::sample().unwrap_or_else(|reason| panic!("{reason}"))
}

#[test]
fn the_stored_answers_are_those_of_now() {
    let sample = sample();
    let stored = Path::new(env!("CARGO_MANIFEST_DIR")).join("../../crates/vectors");
    for (name, text) in [("stdin", sample.input), ("stdout", sample.output)] {
        assert!(
            fs::read_to_string(stored.join(name)).is_ok_and(|stored| stored == text),
            "crates/vectors/{name} is not what `cargo run --release -p differential --bin vectors` writes"
        );
    }
}

/// No cut up to many, each refusal, totals on both sides of the limit, products that wrap, devices, order-only
/// links; and of marks the same, with offsets that the text keeps.
#[test]
fn all_that_is_to_be_replayed_occurs() {
    let sample = sample();
    let tally = &sample.tally;
    let [found, with_device] = sample.pairs_found;
    println!("{} bytes\n{}", sample.input.len(), sample.output);
    // The program has room for 524,288 bytes.
    assert!(sample.input.len() <= 500_000);
    let of_lookups = 9..11;
    for (kind, &count) in sample.kinds.iter().enumerate() {
        assert_eq!(count == 0, of_lookups.contains(&kind), "{kind}");
    }
    assert!(tally.cut_counts[..5].iter().all(|&count| count > 0));
    assert!(tally.at_limit.iter().all(|&count| count > 1));
    assert!(tally.cuts_at_0 > 1);
    assert!(tally.differences[0] > 0);
    assert_eq!(tally.differences[1], 0);
    assert!(found > 100 && with_device > 20);
    let [all, kept, _] = tally.orders;
    assert!(all > 2 * kept && kept > 20);
    let marks = &sample.mark_tally;
    let [all, kept, _] = marks.orders;
    assert!(all > 2 * kept && kept > 20);
    assert!(marks.cut_counts[..5].iter().all(|&count| count > 0));
    assert!(marks.at_limit[1] > 0 && marks.at_limit[2] > 0 && marks.cuts_at_0 > 1);
    assert!(marks.differences.iter().all(|&count| count > 0));
    assert!(sample.marks > 40 && sample.attachments_found > 40);
}

/// Of new tables that are entered in lookups: each refusal, no cut up to many, links of both kinds that are
/// redirected; and a program could read it.
#[test]
fn all_that_is_to_be_replayed_of_lookups_occurs() {
    let sample = vectors::lookup_sample().unwrap_or_else(|reason| panic!("{reason}"));
    println!("{} bytes\n{}", sample.input.len(), sample.output);
    assert!(sample.input.len() <= 250_000);
    assert!(
        sample.kinds.iter().all(|&count| count > 0),
        "{:?}",
        sample.kinds
    );
    assert!(sample.tally.cut_counts[..4].iter().all(|&count| count > 0));
    assert!(sample.tally.rewritten > 5 && sample.tally.orders[2] > 10);
    assert!(sample
        .output
        .contains(&format!("cases of lookups: {}", sample.in_lookups)));
}
