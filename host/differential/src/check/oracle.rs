//! Against the oracle.

use super::{ensure, opened, same, Outcome, Split};
use crate::{
    compare::reachable,
    model::{answers, opened::Opened},
    product,
    subject::differ,
    Edition, Tally,
};

/// A split by the first edition is the oracle's, but for the 16-bit product. Its call is one that is not
/// refused.
pub fn as_the_oracle(split: &Split, tally: &mut Tally) -> Outcome {
    let (before, after) = (&split.before, &split.after);
    let theirs = oracle::split(&before.store, before.table as usize);
    let theirs = theirs.map_err(|error| format!("{error:?}"))?;
    same("cuts", &split.places, &theirs.cuts)?;
    let their_tables: Vec<u32> = theirs.new_tables.iter().map(|&new| new as u32).collect();
    same("new tables", split.new_tables(), &their_tables)?;
    same("data", after.store.data_in_use(), theirs.graph.data())?;

    let ours = reachable(&after.store, &split.tables());
    let theirs = reachable(&theirs.graph, &split.tables());
    let pairpos = opened(&before.store, before.table)?;
    let shows = product::shows(&pairpos, &split.places);
    tally.add(split.answer, &pairpos.weigh(Edition::First), shows);
    ensure((ours != theirs) == (shows == Some(true)), || {
        let difference = differ("objects", &ours, &theirs);
        difference.unwrap_or("the 16-bit product does not show".into())
    })
}

/// A split by the first edition is the oracle's where it is not refused, and the table has a format that is
/// split.
pub fn refused_or_as_the_oracle(split: &Split, tally: &mut Tally) -> Outcome {
    let (store, table) = (&split.before.store, split.before.table);
    match answers::open(store, table) {
        Ok(Some(_)) if split.answer == 0 => as_the_oracle(split, tally),
        _ => {
            tally.answers[split.answer as usize] += 1;
            Ok(())
        }
    }
}
