//! How long the proved splits and cut plans take: by the first edition beside the crate's own, and by the second
//! beside the first. And how long compactions take, beside a plain copy of what is kept, a pass and a walk.
//!
//! ```text
//! bench [--runs N]            times all inputs N times over, 3 unless it is said
//! bench [--runs N] --write    the same, and writes docs/BENCH.md and docs/bench.svg
//! bench --quick               the small inputs, each store once: only that both sides agree, whatever
//!                             the time
//! ```
//!
//! | module | holds |
//! |---|---|
//! | [`input`] | what is split |
//! | [`clock`] | the time that a thread has had |
//! | [`timing`] | what is timed, and how |
//! | [`compaction`] | the same of compactions |
//! | [`figures`] | medians, spreads, ratios |
//! | [`page`] | the tables, for a terminal and for docs/BENCH.md |
//! | [`plot`] | docs/bench.svg |

mod clock;
mod compaction;
mod figures;
mod input;
mod page;
mod plot;
mod timing;

use figures::Figures;
use input::Input;
use std::{env, fs, path::Path, process::ExitCode};
use timing::Timing;

fn main() -> ExitCode {
    let args: Vec<String> = env::args().skip(1).collect();
    let args: Vec<&str> = args.iter().map(String::as_str).collect();
    let (args, is_written) = match args.split_last() {
        Some((&"--write", args)) => (args, true),
        _ => (&args[..], false),
    };
    let done = match args {
        ["--quick"] if !is_written => quick(),
        [] => full(3, is_written),
        ["--runs", runs] => match runs.parse() {
            Ok(runs @ 1..) => full(runs, is_written),
            _ => Err(format!("{runs} is no number of runs")),
        },
        _ => Err("bench [--quick | [--runs N] [--write]]".into()),
    };
    match done {
        Ok(()) => ExitCode::SUCCESS,
        Err(reason) => {
            eprintln!("bench: {reason}");
            ExitCode::FAILURE
        }
    }
}

/// The small inputs, each store once: both sides must agree.
fn quick() -> Result<(), String> {
    let inputs = input::small();
    let figures = measure(&inputs, 1, |input| input.cases.len())?;
    let compactions = compaction::measure(&compaction::small(), 1, |input| input.calls.len())?;
    print!("{}", page::text(&figures, &compactions));
    println!("\nBoth sides agree. Times of so few turns say little.");
    Ok(())
}

/// All inputs; where it is asked for, the page and plot of what they took.
fn full(runs: usize, is_written: bool) -> Result<(), String> {
    let inputs = input::all();
    let figures = measure(&inputs, runs, |input| input.repetitions)?;
    let compactions = compaction::measure(&compaction::all(), runs, |input| input.repetitions)?;
    print!("{}", page::text(&figures, &compactions));
    if !is_written {
        return Ok(());
    }
    let docs = Path::new(env!("CARGO_MANIFEST_DIR")).join("../../docs");
    write(
        &docs.join("BENCH.md"),
        &page::markdown(&figures, &compactions),
    )?;
    write(&docs.join("bench.svg"), &plot::svg(&figures))
}

/// Times each input in each run, after both sides have agreed on it.
fn measure(
    inputs: &[Input],
    runs: usize,
    repetitions: impl Fn(&Input) -> usize,
) -> Result<Vec<Figures>, String> {
    let mut timings = Vec::new();
    for input in inputs {
        let timing = Timing::new(input);
        let outcome = timing.agree();
        outcome.map_err(|reason| format!("{}: {reason}", input.name()))?;
        timings.push((timing, Vec::new()));
    }
    for run in 0..runs {
        for (input, (timing, samples)) in inputs.iter().zip(&mut timings) {
            eprintln!("run {} of {runs}: {}", run + 1, input.name());
            samples.push(timing.run(repetitions(input)));
        }
    }
    let figures = inputs.iter().zip(timings);
    let figures = figures.map(|(input, (timing, runs))| Figures::new(input, timing.needs(), runs));
    Ok(figures.collect())
}

fn write(path: &Path, text: &str) -> Result<(), String> {
    fs::write(path, text).map_err(|error| format!("{}: {error}", path.display()))
}
