//! What must hold of a compaction.

mod numbers;
mod readings;
mod room;

pub use numbers::Numbers;
pub use readings::Readings;
pub use room::freed_room_is_used;

use super::{agree::agree, ensure, same, Outcome};
use crate::{model::soundness::sound, CompactSubject, Compaction, Model};
use oracle::{link, Store};
use std::fmt::Debug;

/// A compaction, before and after.
#[derive(Clone, Debug)]
pub struct Compacted {
    /// What it was lent.
    pub before: Compaction,
    /// What it left.
    pub after: Compaction,
    /// Its answer number.
    pub answer: u32,
}

impl Compacted {
    /// Compacts a store.
    pub fn by(subject: &impl CompactSubject, call: &Compaction) -> Self {
        let mut after = call.clone();
        Self {
            answer: subject.compact(&mut after),
            before: call.clone(),
            after,
        }
    }
}

/// A compaction answers and leaves what the model's does.
pub fn compaction_agrees(subject: &impl CompactSubject, call: &Compaction) -> Outcome {
    let (mut ours, mut theirs) = (call.clone(), call.clone());
    let answers = [subject.compact(&mut ours), Model.compact(&mut theirs)];
    agree(answers, ours.difference(&theirs))
}

/// Kept is exactly what offsets reach from the roots, in its order and with no gap, with its bytes and its
/// links; between the counts is zero, and behind the old ones nothing has changed. A refusal changes nothing.
pub fn kept(compacted: &Compacted) -> Outcome {
    let Compacted {
        before,
        after,
        answer,
    } = compacted;
    if *answer != 0 {
        let mut untouched = before.clone();
        untouched.walk.fill(0);
        untouched.moved = 0;
        return untouched.difference(after).map_or(Ok(()), Err);
    }
    ensure(sound(&after.store), || "the store is not sound".into())?;
    same("walk", &after.walk, &vec![0; before.walk.len()])?;
    let numbers = Numbers::of(compacted)?;
    let [old, new] = [&before.store, &after.store];
    numbers.objects_are_kept(old, new)?;
    numbers.links_are_kept(old, new)?;
    let moved = numbers.moved(old, new);
    ensure(after.moved as usize == moved, || {
        format!("{} bytes moved, not {moved}", after.moved)
    })?;
    ensure(after.moved <= new.counts[0], || {
        "more moved than is left".into()
    })?;
    rest_is_zero(old, new)
}

/// Zeros between the new counts and the old ones, and behind these what there was.
fn rest_is_zero(old: &Store, new: &Store) -> Outcome {
    let ends = |store: &Store, of: usize, width: usize| width * store.counts[of] as usize;
    let between = |of, width| [ends(new, of, width), ends(old, of, width)];
    zero_between("data", between(0, 1), &old.data, &new.data)?;
    zero_between("objects", between(1, 2), &old.objects, &new.objects)?;
    let links = between(2, link::NUMBERS);
    zero_between("links", links, &old.links, &new.links)
}

fn zero_between<N: Copy + Default + Debug + PartialEq>(
    name: &str,
    [now, before]: [usize; 2],
    old: &[N],
    new: &[N],
) -> Outcome {
    same(name, &new[now..before], &vec![N::default(); before - now])?;
    same(name, &new[before..], &old[before..])
}

/// Compacting again, with the roots as they are now, changes and moves nothing.
pub fn compacted_again(subject: &impl CompactSubject, compacted: &Compacted) -> Outcome {
    let call = &compacted.after;
    let again = Compacted::by(subject, call);
    ensure(again.answer == 0, || format!("answer {}", again.answer))?;
    let untouched = Compaction {
        moved: 0,
        ..call.clone()
    };
    untouched.difference(&again.after).map_or(Ok(()), Err)
}
