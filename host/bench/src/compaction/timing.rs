//! What is timed of a compaction, each on a copy that is ready for it.

use super::Input;
use crate::timing::time;
use differential::{
    check::{compaction_agrees, kept, Compacted, Outcome},
    Archive, CompactSubject, Compaction, Pair, Subject,
};
use oracle::{link, Store};
use std::time::Duration;

/// The stores of an input.
pub struct Timing<'a> {
    stores: Vec<Ready<'a>>,
}

/// A store, and what is left of it.
struct Ready<'a> {
    call: &'a Compaction,
    left: Store,
}

/// The times of a run, one for each repetition.
#[derive(Clone, Debug, Default)]
pub struct Samples {
    /// Of compactions.
    pub ours: Vec<Duration>,
    /// Of plain copies of the data and the rows that are kept.
    pub copy: Vec<Duration>,
    /// Of passes over the store, to see that it is sound.
    pub pass: Vec<Duration>,
    /// Of plain walks from the roots.
    pub walk: Vec<Duration>,
}

impl Samples {
    /// So many copies, a pass and a walk, turn by turn.
    pub fn allowed(&self, copies: u32) -> Vec<Duration> {
        let turns = self.copy.iter().zip(&self.pass).zip(&self.walk);
        let allowed = turns.map(|((&copy, &pass), &walk)| copies * copy + pass + walk);
        allowed.collect()
    }
}

impl<'a> Timing<'a> {
    /// Compacts the stores once, to know what is left.
    pub fn new(input: &'a Input) -> Self {
        let stores = input.calls.iter().map(|call| Ready {
            call,
            left: Compacted::by(&Archive, call).after.store,
        });
        Self {
            stores: stores.collect(),
        }
    }

    /// What the first store has in use before and afterwards.
    pub fn counts(&self) -> [[u32; 3]; 2] {
        let Ready { call, left } = &self.stores[0];
        [call.store.counts, left.counts]
    }

    /// The model keeps the same.
    pub fn agree(&self) -> Outcome {
        self.stores.iter().try_for_each(|store| {
            compaction_agrees(&Archive, store.call)?;
            kept(&Compacted::by(&Archive, store.call))
        })
    }

    /// Each in turn, so many times, and once before to get warm.
    pub fn run(&self, repetitions: usize) -> Samples {
        let mut samples = Samples::default();
        for repetition in 0..=repetitions {
            let store = &self.stores[repetition % self.stores.len()];
            let times = [store.compaction(), store.copy(), store.pass(), store.walk()];
            if repetition > 0 {
                let [ours, copy, pass, walk] = times;
                samples.ours.push(ours);
                samples.copy.push(copy);
                samples.pass.push(pass);
                samples.walk.push(walk);
            }
        }
        samples
    }
}

impl Ready<'_> {
    fn compaction(&self) -> Duration {
        let mut call = self.call.clone();
        time(|| Archive.compact(&mut call))
    }

    /// Over a copy of the store, as the compaction writes over its own.
    fn copy(&self) -> Duration {
        let mut store = self.call.store.clone();
        let rows = self.left.objects_in_use().as_flattened();
        let links = self.left.links_in_use().as_flattened();
        let data = self.left.data_in_use();
        time(|| {
            store.data[..data.len()].copy_from_slice(data);
            store.objects[..rows.len()].copy_from_slice(rows);
            store.links[..links.len()].copy_from_slice(links);
        })
    }

    /// A reading of a table that is not in use is refused behind the pass.
    fn pass(&self) -> Duration {
        let (store, mut pair) = (self.call.store.clone(), Pair::default());
        time(|| Archive.read_pair(&store, u32::MAX, [0, 0], &mut pair))
    }

    fn walk(&self) -> Duration {
        let store = self.call.store.clone();
        let mut walk = Walk::new(store.counts[1] as usize);
        time(|| walk.from(&store, &self.call.roots))
    }
}

/// A plain walk along offsets, with room for all objects.
struct Walk {
    marks: Vec<bool>,
    /// Where each object's rows start, and where those of the last end.
    starts: Vec<u32>,
    pending: Vec<u32>,
}

impl Walk {
    fn new(objects: usize) -> Self {
        Self {
            marks: vec![false; objects],
            starts: vec![0; objects + 1],
            pending: Vec::with_capacity(objects),
        }
    }

    /// Marks the roots and what they reach.
    fn from(&mut self, store: &Store, roots: &[u32]) {
        let rows = store.links_in_use();
        for row in rows {
            self.starts[row[0] as usize + 1] += 1;
        }
        for object in 1..self.starts.len() {
            self.starts[object] += self.starts[object - 1];
        }
        for &root in roots {
            self.mark(root);
            while let Some(object) = self.pending.pop() {
                let [start, end] = [0, 1].map(|more| self.starts[object as usize + more] as usize);
                for row in rows[start..end].iter().filter(|row| link::is_offset(row)) {
                    self.mark(row[3]);
                }
            }
        }
    }

    fn mark(&mut self, object: u32) {
        let mark = &mut self.marks[object as usize];
        if !*mark {
            *mark = true;
            self.pending.push(object);
        }
    }
}
