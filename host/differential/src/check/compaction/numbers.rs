//! The numbers of kept objects before and after, as the links say.

use super::Compacted;
use crate::{
    check::{ensure, same, Outcome},
    edit,
    model::objects::Objects,
};
use oracle::{link, Store};

/// The new number of each kept object, at the place of its old one.
///
/// Roots and their new numbers are walked from side by side, along the same offsets. So this says nothing of
/// the order in which a compaction numbers them.
#[derive(Clone, Debug)]
pub struct Numbers(Vec<Option<u32>>);

impl Numbers {
    /// Those of a compaction that was not refused.
    pub fn of(Compacted { before, after, .. }: &Compacted) -> Result<Self, String> {
        let [old, new] = [before, after].map(|call| Objects::of(&call.store));
        let (old, new) = (
            old.ok_or("the store was not sound")?,
            new.ok_or("the store is not sound")?,
        );
        let mut numbers = vec![None; old.count()];
        let roots = before.roots.iter().zip(&after.roots);
        let mut pending: Vec<(u32, u32)> = roots.map(|(&was, &is)| (was, is)).collect();
        while let Some((was, is)) = pending.pop() {
            ensure((is as usize) < new.count(), || {
                format!("object {was} is {is}, which is not in use")
            })?;
            if let Some(other) = numbers[was as usize].replace(is) {
                ensure(other == is, || format!("object {was} is {other} and {is}"))?;
                continue;
            }
            let (old, new) = (old.offsets_of(was), new.offsets_of(is));
            ensure(old.len() == new.len(), || {
                format!("object {was} had {} offsets, now {}", old.len(), new.len())
            })?;
            let children = old.iter().zip(new);
            pending.extend(children.map(|(old, new)| (old[3], new[3])));
        }
        Ok(Self(numbers))
    }

    /// An object's new number, if it is kept.
    pub fn now(&self, object: u32) -> Option<u32> {
        *self.0.get(object as usize)?
    }

    /// The old numbers of the kept objects, and their new ones.
    pub fn kept(&self) -> impl Iterator<Item = (u32, u32)> + '_ {
        let numbers = (0..).zip(&self.0);
        numbers.filter_map(|(was, is)| Some((was, (*is)?)))
    }

    /// All objects that are there are kept ones, in their old order, with their bytes and no gap.
    pub(super) fn objects_are_kept(&self, old: &Store, new: &Store) -> Outcome {
        let all: Vec<u32> = (0..new.counts[1]).collect();
        let numbers: Vec<u32> = self.kept().map(|(_, is)| is).collect();
        same("numbers", &numbers, &all)?;
        for (was, is) in self.kept() {
            same("bytes", edit::bytes(new, is), edit::bytes(old, was))?;
        }
        let mut end = 0;
        for &[head, tail] in new.objects_in_use() {
            ensure(head == end, || format!("a gap from {end} to {head}"))?;
            end = tail;
        }
        ensure(new.counts[0] == end, || {
            format!("{} data bytes in use, not {end}", new.counts[0])
        })
    }

    /// The links, of both kinds, are those that had both their ends among what is kept.
    pub(super) fn links_are_kept(&self, old: &Store, new: &Store) -> Outcome {
        let rows = old.links_in_use().iter();
        let rows = rows.filter_map(|&[parent, position, width, child, kind]| {
            Some([self.now(parent)?, position, width, self.now(child)?, kind])
        });
        let rows: Vec<link::Row> = rows.collect();
        same("links", new.links_in_use(), &rows)
    }

    /// The summed lengths of the objects whose heads changed.
    pub(super) fn moved(&self, old: &Store, new: &Store) -> usize {
        let moved = self.kept().filter(|&(was, is)| {
            let (before, after) = (old.objects_in_use(), new.objects_in_use());
            before[was as usize][0] != after[is as usize][0]
        });
        moved.map(|(was, _)| edit::bytes(old, was).len()).sum()
    }
}
