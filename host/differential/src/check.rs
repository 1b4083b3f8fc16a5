//! What must hold of a call, each with the reason where it does not.

mod agree;
mod attachments;
mod compaction;
mod counted;
mod frame;
mod guaranteed;
mod lookups;
mod marks;
mod oracle;
mod pairs;

pub use agree::{
    all_agree, attachment_agrees, lookups_agree, marks_agree, pair_agrees, plan_agrees,
    split_agrees,
};
pub use attachments::{attachments_agree, attachments_stay};
pub use compaction::{
    compacted_again, compaction_agrees, freed_room_is_used, kept, Compacted, Readings,
};
pub use counted::{counted_alike, counted_somehow};
pub use frame::{again, again_at, frame};
pub use guaranteed::{
    again_each, marks_guaranteed, pairs_guaranteed, refused_or_marks_guaranteed,
    refused_or_pairs_guaranteed,
};
pub use lookups::{applied_agree, applied_stay, entered};
pub use marks::{another_format, marks_as_the_oracle, refused_or_marks_as_the_oracle};
pub use oracle::{as_the_oracle, refused_or_as_the_oracle};
pub use pairs::{pairs_agree, pairs_stay};

use crate::{
    model::{
        answers::{self, Opening},
        marks::MarkBasePos,
        table::PairPos,
    },
    subject::differ,
    Call, Splits,
};
use ::oracle::Store;
use std::fmt::Debug;

/// The first thing that does not hold.
pub type Outcome = Result<(), String>;

/// A split, before and after, beside its cut plan.
#[derive(Clone, Debug)]
pub struct Split {
    /// What it was lent.
    pub before: Call<u32>,
    /// What it left.
    pub after: Call<u32>,
    /// Its answer number.
    pub answer: u32,
    /// The places of the cut plan.
    pub places: Vec<u16>,
}

impl Split {
    /// Plans a split, and carries it out.
    pub fn by(subject: &impl Splits, call: &Call<u32>) -> Self {
        let mut plan = call.to_plan();
        subject.plan(&mut plan);
        let mut after = call.clone();
        Self {
            answer: subject.split(&mut after),
            before: call.clone(),
            after,
            places: plan.list[..plan.count as usize].to_vec(),
        }
    }

    /// The new tables that it lists.
    pub fn new_tables(&self) -> &[u32] {
        &self.after.list[..self.after.count as usize]
    }

    /// The kept table and then the new ones.
    pub fn tables(&self) -> Vec<u32> {
        [&[self.before.table], self.new_tables()].concat()
    }
}

/// A PairPos table that is readable by the model.
fn opened(store: &Store, table: u32) -> Result<PairPos<'_>, String> {
    readable(answers::open(store, table), table)
}

/// A MarkBasePos table that is readable by the model.
fn opened_marks(store: &Store, table: u32) -> Result<MarkBasePos<'_>, String> {
    readable(answers::open_marks(store, table), table)
}

fn readable<T>(opening: Opening<T>, table: u32) -> Result<T, String> {
    match opening {
        Ok(Some(opened)) => Ok(opened),
        Ok(None) => Err(format!("table {table} has another format")),
        Err(refusal) => Err(format!("table {table}: {refusal:?}")),
    }
}

/// Of more tables than this, some are read by another subject.
pub const MOST_TABLES: usize = 64;

/// How many of them, about.
const SOME_TABLES: usize = 15;

/// All of a few tables; of many, the kept one and others from the first to the last.
fn some_tables(split: &Split) -> Vec<u32> {
    let tables = split.tables();
    if tables.len() <= MOST_TABLES {
        return tables;
    }
    let step = tables.len() / SOME_TABLES;
    let others = tables.into_iter().rev().step_by(step);
    [split.before.table].into_iter().chain(others).collect()
}

fn same<N: Debug + PartialEq>(name: &str, ours: &[N], theirs: &[N]) -> Outcome {
    differ(name, ours, theirs).map_or(Ok(()), Err)
}

fn ensure(holds: bool, reason: impl FnOnce() -> String) -> Outcome {
    match holds {
        true => Ok(()),
        false => Err(reason()),
    }
}
