//! What is timed: a single call, on a copy that is ready for it.

use crate::{clock, input::Input};
use differential::{
    check::{
        all_agree, as_the_oracle, marks_agree, marks_as_the_oracle, marks_guaranteed,
        pairs_guaranteed, Outcome, Split,
    },
    generate::Case,
    lend::{self, Need},
    Archive, Call, Edition, Marks, Random, Splits, Tally,
};
use oracle::Graph;
use std::{hint::black_box, time::Duration};

/// A store as each side takes it.
struct Ready {
    /// Whether its table is one of MarkBasePos.
    is_marks: bool,
    /// What our split is lent, by each edition: exactly what it needs, its scratch being zero.
    calls: Editions<Call<u32>>,
    /// The oracle's graph of the store, loaded.
    graph: Graph,
    /// What is lent, by each edition.
    needs: Editions<Need>,
}

/// The stores of an input, ready for both sides.
pub struct Timing {
    stores: Vec<Ready>,
}

/// The times of a run, one for each repetition.
#[derive(Clone, Debug, Default)]
pub struct Samples {
    /// Of splits.
    pub split: Sides<Vec<Duration>>,
    /// Of cut plans.
    pub plan: Sides<Vec<Duration>>,
    /// Of splits by each edition.
    pub split_by: Editions<Vec<Duration>>,
    /// Of cut plans by each edition.
    pub plan_by: Editions<Vec<Duration>>,
}

/// Something of the proved functions, by the first edition, and the same of the oracle.
#[derive(Clone, Copy, Debug, Default)]
pub struct Sides<T> {
    /// Of the proved functions.
    pub ours: T,
    /// Of the crate's text.
    pub oracle: T,
}

/// Something of the proved functions by the first edition, and by the second.
#[derive(Clone, Copy, Debug, Default)]
pub struct Editions<T> {
    /// By the first.
    pub first: T,
    /// By the second.
    pub second: T,
}

/// While the oracle replaces a part it has two of it for a moment.
const SPARE_BYTES: usize = 1 << 20;

impl Timing {
    /// Lends and loads what both sides need.
    pub fn new(input: &Input) -> Self {
        Self {
            stores: input
                .cases
                .iter()
                .map(|case| Ready::new(case, input.shape.is_marks()))
                .collect(),
        }
    }

    /// What the first store's split is lent, by each edition.
    pub fn needs(&self) -> Editions<Need> {
        self.stores[0].needs
    }

    /// By the first edition the oracle cuts at the same places, and makes the same of the table; by the second
    /// the model does.
    pub fn agree(&self) -> Outcome {
        self.stores.iter().try_for_each(Ready::agree)
    }

    /// Each side in turn, so many times, and once before to get warm.
    pub fn run(&self, repetitions: usize) -> Samples {
        let mut samples = Samples::default();
        for repetition in 0..=repetitions {
            let store = &self.stores[repetition % self.stores.len()];
            let (split, plan) = (store.split(), store.plan());
            // Now the one edition comes first, and now the other.
            let turned = repetition / self.stores.len() % 2 == 1;
            let split_by = in_turn(turned, |edition| store.split_by(edition));
            let plan_by = in_turn(turned, |edition| store.plan_by(edition));
            if repetition > 0 {
                samples.split.push(split);
                samples.plan.push(plan);
                samples.split_by.push(split_by);
                samples.plan_by.push(plan_by);
            }
        }
        samples
    }
}

impl Ready {
    fn new(case: &Case, is_marks: bool) -> Self {
        let (store, table) = (&case.store, case.table);
        let lent = |edition| {
            let random = &mut Random::new(0);
            let (mut call, need) = match is_marks {
                false => (
                    lend::exactly(store, table, edition, random),
                    Need::of(store, table, edition),
                ),
                true => (
                    lend::marks_exactly(store, table, edition, random),
                    Need::of_marks(store, table, edition),
                ),
            };
            call.scratch.clear();
            (call, need)
        };
        let [(first, first_need), (second, second_need)] = Edition::ALL.map(lent);
        Self {
            is_marks,
            calls: Editions { first, second },
            graph: Graph::load(store).expect("a sound store"),
            needs: Editions {
                first: first_need,
                second: second_need,
            },
        }
    }

    fn agree(&self) -> Outcome {
        let tally = &mut Tally::default();
        let Editions { first, second } = &self.calls;
        match self.is_marks {
            false => {
                as_the_oracle(&Split::by(&Archive, first), tally)?;
                all_agree(&Archive, second)?;
                pairs_guaranteed(&Archive, &Split::by(&Archive, second), tally)
            }
            true => {
                marks_as_the_oracle(&Split::by(&Marks(&Archive), first), tally)?;
                marks_agree(&Archive, second)?;
                marks_guaranteed(&Archive, &Split::by(&Marks(&Archive), second), tally)
            }
        }
    }

    fn call(&self, edition: Edition) -> &Call<u32> {
        match edition {
            Edition::First => &self.calls.first,
            Edition::Second => &self.calls.second,
        }
    }

    fn split_by(&self, edition: Edition) -> Duration {
        let mut call = self.call(edition).clone();
        match self.is_marks {
            false => time(|| Archive.split(&mut call)),
            true => time(|| Marks(&Archive).split(&mut call)),
        }
    }

    fn plan_by(&self, edition: Edition) -> Duration {
        let mut plan = self.call(edition).to_plan();
        match self.is_marks {
            false => time(|| Archive.plan(&mut plan)),
            true => time(|| Marks(&Archive).plan(&mut plan)),
        }
    }

    fn split(&self) -> Sides<Duration> {
        Sides {
            ours: self.split_by(Edition::First),
            oracle: self.oracle(Graph::split_pairpos, Graph::split_markbase_pos),
        }
    }

    fn plan(&self) -> Sides<Duration> {
        Sides {
            ours: self.plan_by(Edition::First),
            oracle: self.oracle(Graph::plan_pairpos, Graph::plan_markbase_pos),
        }
    }

    /// The oracle's time for the store's table. Like ours, its copy is made right before the call.
    fn oracle<T>(
        &self,
        pairs: impl FnOnce(&mut Graph, usize) -> T,
        marks: impl FnOnce(&mut Graph, usize) -> T,
    ) -> Duration {
        let mut graph = self.graph_with_room();
        let table = self.calls.first.table as usize;
        match self.is_marks {
            false => time(|| pairs(&mut graph, table)),
            true => time(|| marks(&mut graph, table)),
        }
    }

    fn graph_with_room(&self) -> Graph {
        let [bytes, objects, _] = self.needs.first.room;
        self.graph.with_room(bytes + SPARE_BYTES, objects)
    }
}

impl Sides<Vec<Duration>> {
    fn push(&mut self, times: Sides<Duration>) {
        self.ours.push(times.ours);
        self.oracle.push(times.oracle);
    }
}

impl Editions<Vec<Duration>> {
    fn push(&mut self, times: Editions<Duration>) {
        self.first.push(times.first);
        self.second.push(times.second);
    }
}

/// The times of both editions, the second of them first where they are turned.
fn in_turn(turned: bool, time: impl Fn(Edition) -> Duration) -> Editions<Duration> {
    let early = turned.then(|| time(Edition::Second));
    let first = time(Edition::First);
    Editions {
        first,
        second: early.unwrap_or_else(|| time(Edition::Second)),
    }
}

/// How long something takes. What it gives is dropped afterwards.
pub fn time<T>(call: impl FnOnce() -> T) -> Duration {
    let start = clock::now();
    let given = black_box(call());
    let time = clock::now() - start;
    drop(given);
    time
}
