//! MarkBasePos tables against the oracle.

use super::{ensure, frame, opened_marks, same, Outcome, Split};
use crate::{
    compare::reachable_marks,
    edit, kept_offsets,
    model::{answers, opened::Opened},
    subject::differ,
    Edition, MarkSubject, Marks, Tally,
};

/// The text copies both arrays before it adds its first new table; the port's come last.
const COPIED_ARRAYS: u32 = 2;

/// A split by the first edition is the oracle's, but for the old offsets that the text leaves in kept arrays.
/// Its call is one that is not refused.
pub fn marks_as_the_oracle(split: &Split, tally: &mut Tally) -> Outcome {
    let marks = opened_marks(&split.before.store, split.before.table)?;
    let shows = as_the_text(split)?;
    tally.add(split.answer, &marks.weigh(Edition::First), shows);
    Ok(())
}

/// A split by the first edition is the oracle's where it is not refused, and the table has the format that is
/// split.
pub fn refused_or_marks_as_the_oracle(split: &Split, tally: &mut Tally) -> Outcome {
    let (store, table) = (&split.before.store, split.before.table);
    match answers::open_marks(store, table) {
        Ok(Some(_)) if split.answer == 0 => marks_as_the_oracle(split, tally),
        _ => {
            tally.answers[split.answer as usize] += 1;
            Ok(())
        }
    }
}

/// The same table under another format is nothing to split. The text asks no format: it splits the
/// table as one of format 1, by the first edition, and gives format 1 to the new tables alone.
pub fn another_format(subject: &impl MarkSubject, split: &Split, format: u16) -> Outcome {
    let mut other = split.clone();
    let table = split.before.table;
    edit::set_word(&mut other.before.store, table, 0, format);
    edit::set_word(&mut other.after.store, table, 0, format);
    if split.before.edition == Edition::First.number() {
        as_the_text(&other).map_err(|reason| format!("format {format}: {reason}"))?;
    }

    let untouched = Split::by(&Marks(subject), &other.before);
    ensure(
        untouched.answer == 0 && untouched.new_tables().is_empty(),
        || format!("format {format} is split"),
    )?;
    frame(&untouched)
}

/// Cuts, new tables and all that is reachable are the oracle's. Says whether an old offset shows;
/// nothing where there is no cut.
fn as_the_text(split: &Split) -> Result<Option<bool>, String> {
    let (before, after) = (&split.before, &split.after);
    let theirs = oracle::split_markbase(&before.store, before.table as usize);
    let theirs = theirs.map_err(|error| format!("{error:?}"))?;
    same("cuts", &split.places, &theirs.cuts)?;
    let their_tables: Vec<u32> = theirs.new_tables.iter().map(|&new| new as u32).collect();
    let new_tables = split.new_tables().iter();
    let moved: Vec<u32> = new_tables.map(|new| new + COPIED_ARRAYS).collect();
    same("new tables", &moved, &their_tables)?;

    let as_left = match moved.is_empty() {
        true => Some(after.store.clone()),
        false => kept_offsets::as_the_text(&before.store, &after.store, before.table),
    };
    let as_left = as_left.ok_or("a kept table without arrays")?;
    let ours = reachable_marks(&as_left, &split.tables());
    let their_tables = [&[before.table], &their_tables[..]].concat();
    let theirs = reachable_marks(&theirs.graph, &their_tables);
    differ("objects", &ours, &theirs).map_or(Ok(()), Err)?;
    Ok((!moved.is_empty()).then(|| as_left != after.store))
}
