//! The rules, in plain Rust.

pub mod answers;
pub mod class_def;
pub mod compaction;
pub mod coverage;
pub mod cuts;
pub mod estimate;
pub mod header;
pub mod lookups;
pub mod marks;
pub mod measure;
pub mod numbers;
pub mod objects;
pub mod opened;
pub mod pairs;
pub mod ranges;
pub mod reach;
pub mod soundness;
pub mod table;
pub mod values;
pub mod written;

use crate::{
    Attachment, Call, CompactSubject, Compaction, LookupSubject, MarkSubject, Pair, Subject,
};
use answers::Opening;
use oracle::Store;
use written::Written;

/// The rules as a subject.
#[derive(Clone, Copy, Debug)]
pub struct Model;

impl Subject for Model {
    fn split_pairpos(&self, call: &mut Call<u32>) -> u32 {
        let outcome = answers::split(call, answers::open);
        settle_split(call, outcome)
    }

    fn cut_plan(&self, call: &mut Call<u16>) -> u32 {
        let outcome = answers::plan(call, answers::open);
        settle(call, outcome, |_, places| places)
    }

    fn read_pair(&self, store: &Store, table: u32, glyphs: [u16; 2], pair: &mut Pair) -> u32 {
        let reading = answers::open_to_read(store, table);
        settle_reading(pair, reading, |pairpos| pairs::read(&pairpos, glyphs))
    }
}

impl MarkSubject for Model {
    fn split_markbasepos(&self, call: &mut Call<u32>) -> u32 {
        let outcome = answers::split(call, answers::open_marks);
        settle_split(call, outcome)
    }

    fn cut_plan_markbasepos(&self, call: &mut Call<u16>) -> u32 {
        let outcome = answers::plan(call, answers::open_marks);
        settle(call, outcome, |_, places| places)
    }

    fn read_mark(
        &self,
        store: &Store,
        table: u32,
        [mark, base]: [u16; 2],
        attachment: &mut Attachment,
    ) -> u32 {
        let reading = answers::open_marks(store, table);
        settle_reading(attachment, reading, |marks| {
            marks::attachments::read(&marks, mark, base)
        })
    }
}

impl LookupSubject for Model {
    fn split_in_lookups(&self, call: &mut Call<u32>) -> u32 {
        let outcome = answers::split_in_lookups(call);
        settle_split(call, outcome)
    }
}

impl CompactSubject for Model {
    fn compact(&self, call: &mut Compaction) -> u32 {
        let outcome = compaction::compact(call);
        call.walk.fill(0);
        call.moved = 0;
        match outcome {
            Ok(compacted) => {
                call.store = compacted.store;
                call.roots = compacted.roots;
                call.moved = compacted.moved as u32;
                0
            }
            Err(refusal) => refusal as u32,
        }
    }
}

fn settle_split(call: &mut Call<u32>, outcome: Opening<Written>) -> u32 {
    settle(call, outcome, |call, written| {
        written.carry_out(&mut call.store);
        written.new_tables
    })
}

/// Leaves what a reading gives: nothing where the table has another format or is refused.
fn settle_reading<T, R: Default>(
    place: &mut R,
    opening: Opening<T>,
    read: impl FnOnce(T) -> R,
) -> u32 {
    let (answer, reading) = match opening {
        Ok(table) => (0, table.map_or(R::default(), read)),
        Err(refusal) => (refusal as u32, R::default()),
    };
    *place = reading;
    answer
}

/// Leaves a call as its outcome says: `carry_out` gives the list's first entries.
fn settle<N: Copy, T>(
    call: &mut Call<N>,
    outcome: Opening<T>,
    carry_out: impl FnOnce(&mut Call<N>, T) -> Vec<N>,
) -> u32 {
    call.scratch.clear();
    call.count = 0;
    match outcome {
        Ok(None) => 0,
        Ok(Some(outcome)) => {
            let entries = carry_out(call, outcome);
            call.list[..entries.len()].copy_from_slice(&entries);
            call.count = entries.len() as u32;
            0
        }
        Err(refusal) => refusal as u32,
    }
}
