//! Compactions, beside a plain copy of what is kept, a pass over the store, and a walk.
//!
//! | module | holds |
//! |---|---|
//! | [`input`] | what is compacted |
//! | [`timing`] | what is timed, and how |

mod input;
mod timing;

pub use input::{all, small, Input, Shape};

use crate::figures::{ratio, ratios_of, Spread};
use differential::generate::large::Order;
use std::time::Duration;
use timing::{Samples, Timing};

/// How many copies of what is kept a compaction may take, beside a pass and a walk.
pub const COPIES: u32 = 3;

/// All that is known of an input.
pub struct Figures {
    /// What the stores are like.
    pub shape: Shape,
    /// How many objects there are, before the split if there was one.
    pub size: usize,
    /// How the objects are numbered.
    pub order: Order,
    /// In use before: data bytes, objects, links.
    pub before: [u32; 3],
    /// In use afterwards.
    pub after: [u32; 3],
    /// How many stores took turns.
    pub stores: usize,
    /// How often each took its turn in a run.
    pub repetitions: usize,
    /// The compactions.
    pub ours: Spread,
    /// Plain copies of what is kept.
    pub copy: Spread,
    /// Passes over the store, by a reading that is refused behind it.
    pub pass: Spread,
    /// Plain walks from the roots.
    pub walk: Spread,
    /// Quartiles of our time by three copies, a pass and a walk, turn by turn.
    pub ratios: [f64; 3],
}

/// Times each input in each run, after the model has agreed on it.
pub fn measure(
    inputs: &[Input],
    runs: usize,
    repetitions: impl Fn(&Input) -> usize,
) -> Result<Vec<Figures>, String> {
    let mut figures = Vec::new();
    for input in inputs {
        let timing = Timing::new(input);
        let outcome = timing.agree();
        outcome.map_err(|reason| format!("{}: {reason}", input.name()))?;
        let samples = (0..runs).map(|run| {
            eprintln!("run {} of {runs}: {}", run + 1, input.name());
            timing.run(repetitions(input))
        });
        figures.push(Figures::new(input, &timing, samples.collect()));
    }
    Ok(figures)
}

impl Figures {
    fn new(input: &Input, timing: &Timing, runs: Vec<Samples>) -> Self {
        let spread = |of: fn(&Samples) -> &Vec<Duration>| Spread::new(runs.iter().map(of));
        let turns = runs.iter().flat_map(|run| {
            let allowed = run.allowed(COPIES);
            run.ours.clone().into_iter().zip(allowed)
        });
        let [before, after] = timing.counts();
        Self {
            shape: input.shape,
            size: input.size,
            order: input.order,
            before,
            after,
            stores: input.calls.len(),
            repetitions: runs[0].ours.len(),
            ours: spread(|run| &run.ours),
            copy: spread(|run| &run.copy),
            pass: spread(|run| &run.pass),
            walk: spread(|run| &run.walk),
            ratios: ratios_of(turns),
        }
    }

    /// What may be taken: three copies, a pass and a walk, by their medians.
    pub fn allowed(&self) -> Duration {
        COPIES * self.copy.median() + self.pass.median() + self.walk.median()
    }

    /// By how much more it takes than a smaller one, and by how much more may be taken.
    pub fn growth_from(&self, smaller: &Self) -> [f64; 2] {
        [
            ratio(self.ours.median(), smaller.ours.median()),
            ratio(self.allowed(), smaller.allowed()),
        ]
    }
}
