//! What is wrong with a compaction.

use super::{lent, soundness, table::number_not_in_use, Explanation, Fault, Place};
use crate::{Refusal, StoreRef};

/// The store, then the roots in order, then the walk.
pub(super) fn explain(store: StoreRef, roots: &[u32], walk: usize) -> Explanation {
    let unsound = || Some((Refusal::Unsound, soundness::fault(store)?));
    let no_root = || Some((Refusal::NoTable, root_not_in_use(store, roots)?));
    let short = || Some((Refusal::ShortScratch, lent::short(lent::walk(store, walk))?));
    Explanation(unsound().or_else(no_root).or_else(short))
}

fn root_not_in_use(store: StoreRef, roots: &[u32]) -> Option<Fault> {
    let mut roots = roots.iter().enumerate();
    roots.find_map(|(entry, &root)| number_not_in_use(store, Place::Root(entry), root))
}
