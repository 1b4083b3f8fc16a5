//! Runs of the splitter against the model and the oracle, over as many seeds as one likes.
//!
//! ```text
//! runs --seeds A..B [--subject archive|model] [--kind pairs|marks|lookups|compact] [--format 1|2]
//!      [--edition 1|2]
//! ```
//!
//! Each seed makes a store of each format of PairPos, or one with a MarkBasePos table, or one with a
//! PairPos table in lookups, which is split whole and damaged, by both editions or by one; or one of each of these
//! four, which is compacted, split, compacted and split again, and damaged. The first difference ends the run,
//! with the seed. Otherwise it ends with how often each case occurred, in each edition.

use differential::{
    check::Outcome,
    generate::{self, Case, Listed},
    lend,
    runs::{self, Everything},
    Archive, Edition, MarkSubject, Model, Subject, Tally,
};
use std::{
    env,
    ops::Range,
    panic::{catch_unwind, AssertUnwindSafe},
    process::ExitCode,
    time::{Duration, Instant},
};

const USAGE: &str =
    "runs --seeds A..B [--subject archive|model] [--kind pairs|marks|lookups|compact] \
                     [--format 1|2] [--edition 1|2]";

/// How often it says how far it is.
const PROGRESS: Duration = Duration::from_secs(5);

/// What is run.
struct Args {
    seeds: Range<u64>,
    is_model: bool,
    kinds: &'static [Kind],
    editions: &'static [Edition],
}

/// A kind of table, or all of them, to be compacted.
#[derive(Clone, Copy, Debug, PartialEq, Eq)]
enum Kind {
    Format1,
    Format2,
    Marks,
    Lookups,
    Compact,
}

fn main() -> ExitCode {
    let Some(args) = Args::read(env::args().skip(1)) else {
        eprintln!("{USAGE}");
        return ExitCode::FAILURE;
    };
    let done = match args.is_model {
        true => run(&Model, &args),
        false => run(&Archive, &args),
    };
    match done {
        Ok(()) => ExitCode::SUCCESS,
        Err(reason) => {
            eprintln!("{reason}");
            ExitCode::FAILURE
        }
    }
}

impl Kind {
    /// How many stores there are of a seed.
    const fn stores(self) -> u64 {
        match self {
            Self::Format1 | Self::Format2 | Self::Marks | Self::Lookups => 1,
            Self::Compact => 4,
        }
    }
}

impl Args {
    fn read(mut words: impl Iterator<Item = String>) -> Option<Self> {
        let mut args = Self {
            seeds: 0..0,
            is_model: false,
            kinds: &[Kind::Format1, Kind::Format2],
            editions: &Edition::ALL,
        };
        while let Some(name) = words.next() {
            let word = words.next()?;
            match (name.as_str(), word.as_str()) {
                ("--seeds", seeds) => {
                    let (start, end) = seeds.split_once("..")?;
                    args.seeds = start.parse().ok()?..end.parse().ok()?;
                }
                ("--subject", "archive") => args.is_model = false,
                ("--subject", "model") => args.is_model = true,
                ("--kind", "pairs") => args.kinds = &[Kind::Format1, Kind::Format2],
                ("--kind", "marks") => args.kinds = &[Kind::Marks],
                ("--kind", "lookups") => args.kinds = &[Kind::Lookups],
                ("--kind", "compact") => args.kinds = &[Kind::Compact],
                ("--format", "1") => args.kinds = &[Kind::Format1],
                ("--format", "2") => args.kinds = &[Kind::Format2],
                ("--edition", "1") => args.editions = &[Edition::First],
                ("--edition", "2") => args.editions = &[Edition::Second],
                _ => return None,
            }
        }
        (!args.seeds.is_empty()).then_some(args)
    }
}

fn run(subject: &impl Everything, args: &Args) -> Outcome {
    let start = Instant::now();
    let mut said = start;
    let mut tallies = vec![Tally::default(); args.editions.len()];
    let mut stores = 0;
    for seed in args.seeds.clone() {
        for &kind in args.kinds {
            for (&edition, tally) in args.editions.iter().zip(&mut tallies) {
                let outcome = check(subject, kind, edition, seed, tally);
                outcome.map_err(|reason| {
                    let edition = edition.number();
                    format!("{kind:?}, edition {edition}, seed {seed}: {reason}")
                })?;
            }
            stores += kind.stores();
        }
        if said.elapsed() >= PROGRESS {
            said = Instant::now();
            let rate = rate(stores, start);
            eprintln!("seed {seed} of {:?}: {rate} stores a second", args.seeds);
        }
    }
    let calls: usize = tallies.iter().flat_map(|tally| tally.answers).sum();
    let seconds = start.elapsed().as_secs();
    println!("{stores} stores in {calls} calls, no difference");
    for (edition, tally) in args.editions.iter().zip(&tallies) {
        println!("edition {}\n{tally}", edition.number());
    }
    println!("{seconds} seconds, {} stores a second", rate(stores, start));
    Ok(())
}

/// The store of a seed, whole and damaged. A panic is a difference too.
fn check(
    subject: &impl Everything,
    kind: Kind,
    edition: Edition,
    seed: u64,
    tally: &mut Tally,
) -> Outcome {
    let checked = catch_unwind(AssertUnwindSafe(|| match kind {
        Kind::Format1 => check_pairs(subject, &generate::format1(seed), edition, seed, tally),
        Kind::Format2 => check_pairs(subject, &generate::format2(seed), edition, seed, tally),
        Kind::Marks => check_marks(subject, &generate::marks(seed), edition, seed, tally),
        Kind::Lookups => check_lookups(subject, &generate::lookups(seed), edition, seed, tally),
        Kind::Compact => check_compactions(subject, edition, seed, tally),
    }));
    checked.unwrap_or(Err("panicked".into()))
}

fn check_pairs(
    subject: &impl Subject,
    case: &Case,
    edition: Edition,
    seed: u64,
    tally: &mut Tally,
) -> Outcome {
    runs::whole(subject, case, edition, seed, tally)?;
    runs::damaged(subject, case, edition, seed, tally)
}

fn check_marks(
    subject: &impl MarkSubject,
    case: &Case,
    edition: Edition,
    seed: u64,
    tally: &mut Tally,
) -> Outcome {
    runs::marks_whole(subject, case, edition, seed, tally)?;
    runs::marks_damaged(subject, case, edition, seed, tally)
}

fn check_lookups(
    subject: &impl Everything,
    case: &Listed,
    edition: Edition,
    seed: u64,
    tally: &mut Tally,
) -> Outcome {
    runs::lookups_whole(subject, case, edition, seed, tally)?;
    runs::lookups_damaged(subject, case, edition, seed, tally)
}

/// The stores of all kinds of a seed.
fn check_compactions(
    subject: &impl Everything,
    edition: Edition,
    seed: u64,
    tally: &mut Tally,
) -> Outcome {
    for (functions, call) in lend::all_kinds(seed, edition) {
        let checked = runs::compacted_whole(subject, functions, &call, seed, tally)
            .and_then(|()| runs::compacted_damaged(subject, functions, &call, seed, tally));
        checked.map_err(|reason| format!("{functions:?}: {reason}"))?;
    }
    Ok(())
}

fn rate(stores: u64, start: Instant) -> u64 {
    (stores as f64 / start.elapsed().as_secs_f64()) as u64
}
