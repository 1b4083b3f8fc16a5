//! Medians, spreads and ratios of what was timed.

use crate::{
    input::{Input, Shape},
    timing::{Editions, Samples, Sides},
};
use differential::{generate::large::Order, lend::Need};
use std::time::Duration;

/// All that is known of an input.
pub struct Figures {
    /// What the tables are like.
    pub shape: Shape,
    /// How many objects there are, or anchors.
    pub size: usize,
    /// How the objects are numbered.
    pub order: Order,
    /// Whether a third of the links are order-only.
    pub has_orders: bool,
    /// Whether it is one of those that grow.
    pub grows: bool,
    /// In use: data bytes, objects, links.
    pub counts: [u32; 3],
    /// Covered glyphs.
    pub glyphs: usize,
    /// Cuts, by each edition.
    pub cuts: Editions<usize>,
    /// How many stores took turns.
    pub stores: usize,
    /// How often each side took its turn in a run.
    pub repetitions: usize,
    /// The splits.
    pub split: Compared,
    /// The cut plans.
    pub plan: Compared,
    /// Quartiles of our cut plan's time by that of the oracle's whole split, turn by turn.
    pub plan_by_split: [f64; 3],
    /// The splits by the second edition.
    pub second_split: Second,
    /// The cut plans by the second edition.
    pub second_plan: Second,
}

/// Times of both sides.
pub struct Compared {
    /// Each side's times.
    pub times: Sides<Spread>,
    /// Quartiles of our time by the oracle's, turn by turn.
    pub ratios: [f64; 3],
}

/// Times of the second edition.
pub struct Second {
    /// All of them.
    pub times: Spread,
    /// Quartiles of its time by the first edition's, turn by turn.
    pub ratios: [f64; 3],
}

/// Times of one side.
pub struct Spread {
    /// The lower quartile, the median and the upper quartile of all.
    pub quartiles: [Duration; 3],
    /// The median of each run.
    pub run_medians: Vec<Duration>,
}

impl Figures {
    /// Of the runs of an input.
    pub fn new(input: &Input, needs: Editions<Need>, runs: Vec<Samples>) -> Self {
        Self {
            shape: input.shape,
            size: input.size,
            order: input.order,
            has_orders: input.has_orders,
            grows: input.grows,
            counts: input.counts(),
            glyphs: needs.first.glyphs,
            cuts: Editions {
                first: needs.first.list,
                second: needs.second.list,
            },
            stores: input.cases.len(),
            repetitions: runs[0].split.ours.len(),
            split: Compared::new(runs.iter().map(|run| &run.split)),
            plan: Compared::new(runs.iter().map(|run| &run.plan)),
            plan_by_split: ratios(
                runs.iter()
                    .flat_map(|run| run.plan.ours.iter().zip(&run.split.oracle)),
            ),
            second_split: Second::new(runs.iter().map(|run| &run.split_by)),
            second_plan: Second::new(runs.iter().map(|run| &run.plan_by)),
        }
    }

    /// Objects in use.
    pub fn objects(&self) -> u32 {
        self.counts[1]
    }
}

impl Compared {
    fn new<'a>(runs: impl Iterator<Item = &'a Sides<Vec<Duration>>> + Clone) -> Self {
        let turns = runs.clone();
        let turns = turns.flat_map(|run| run.ours.iter().zip(&run.oracle));
        Self {
            ratios: ratios(turns),
            times: Sides {
                ours: Spread::new(runs.clone().map(|run| &run.ours)),
                oracle: Spread::new(runs.map(|run| &run.oracle)),
            },
        }
    }
}

impl Second {
    fn new<'a>(runs: impl Iterator<Item = &'a Editions<Vec<Duration>>> + Clone) -> Self {
        let turns = runs.clone();
        let turns = turns.flat_map(|run| run.second.iter().zip(&run.first));
        Self {
            ratios: ratios(turns),
            times: Spread::new(runs.map(|run| &run.second)),
        }
    }
}

impl Spread {
    /// Of the times of each run.
    pub fn new<'a>(runs: impl Iterator<Item = &'a Vec<Duration>> + Clone) -> Self {
        let sorted = |mut times: Vec<Duration>| {
            times.sort();
            quartiles(&times)
        };
        Self {
            quartiles: sorted(runs.clone().flatten().copied().collect()),
            run_medians: runs.map(|run| sorted(run.clone())[1]).collect(),
        }
    }

    /// The median of all.
    pub fn median(&self) -> Duration {
        self.quartiles[1]
    }

    /// By how much the greatest median of a run exceeds the least, as a part of it.
    fn noise(&self) -> f64 {
        let least = self.run_medians.iter().min().copied().unwrap_or_default();
        let greatest = self.run_medians.iter().max().copied().unwrap_or_default();
        ratio(greatest, least) - 1.0
    }
}

/// How far the medians of runs lie apart: of half of all that was timed at most, and of any at most.
pub fn noise(figures: &[Figures]) -> [f64; 2] {
    let compared = figures.iter().flat_map(|input| [&input.split, &input.plan]);
    let spreads = compared.flat_map(|compared| [&compared.times.ours, &compared.times.oracle]);
    let seconds = figures
        .iter()
        .flat_map(|input| [&input.second_split.times, &input.second_plan.times]);
    let mut noise: Vec<f64> = spreads.chain(seconds).map(Spread::noise).collect();
    noise.sort_by(f64::total_cmp);
    [noise[noise.len() / 2], noise[noise.len() - 1]]
}

/// By how much more the second takes than the first, for each side.
pub fn growth(first: &Compared, second: &Compared) -> Sides<f64> {
    let (first, second) = (&first.times, &second.times);
    Sides {
        ours: ratio(second.ours.median(), first.ours.median()),
        oracle: ratio(second.oracle.median(), first.oracle.median()),
    }
}

/// Quartiles of what the one takes by what the other does, turn by turn.
fn ratios<'a>(turns: impl Iterator<Item = (&'a Duration, &'a Duration)>) -> [f64; 3] {
    ratios_of(turns.map(|(a, b)| (*a, *b)))
}

/// The same, of times that are nobody's.
pub fn ratios_of(turns: impl Iterator<Item = (Duration, Duration)>) -> [f64; 3] {
    let mut ratios: Vec<f64> = turns.map(|(a, b)| ratio(a, b)).collect();
    ratios.sort_by(f64::total_cmp);
    quartiles(&ratios)
}

/// What the one takes by what the other does.
pub fn ratio(a: Duration, b: Duration) -> f64 {
    a.as_secs_f64() / b.as_secs_f64()
}

/// The lower quartile, the median and the upper quartile of what is sorted.
fn quartiles<T: Copy>(sorted: &[T]) -> [T; 3] {
    let last = sorted.len() - 1;
    [1, 2, 3].map(|quarter| sorted[(last * quarter + 2) / 4])
}
