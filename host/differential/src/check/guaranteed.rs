//! What the second edition guarantees.

use super::{again_at, ensure, opened, opened_marks, some_tables, Outcome, Split};
use crate::{
    model::{answers, cuts::LIMIT, header::Format, measure::Measured, opened::Opened},
    Edition, MarkSubject, Marks, Splits, Subject, Tally,
};

/// Of tables with at most so many items, lists of cuts are measured.
const MOST_MEASURED: usize = 40;

/// Of tables with at most so many, each list of cuts there is.
const MOST_LISTED: usize = 10;

/// A split by the second edition keeps to the limit, in as few cuts as can be, and no table that it leaves is
/// cut again. Its call is one that is not refused.
pub fn pairs_guaranteed(subject: &impl Subject, split: &Split, tally: &mut Tally) -> Outcome {
    let old = opened(&split.before.store, split.before.table)?;
    cuts_are_within(&old, split, old.header.format == Format::One, tally)?;
    let results = some_tables(split).into_iter();
    let mut results = results.map(|table| opened(&split.after.store, table));
    results.try_for_each(|table| is_within(&table?, split))?;
    again_each(subject, split)
}

/// The same of a MarkBasePos table.
pub fn marks_guaranteed(subject: &impl MarkSubject, split: &Split, tally: &mut Tally) -> Outcome {
    let old = opened_marks(&split.before.store, split.before.table)?;
    cuts_are_within(&old, split, true, tally)?;
    let results = some_tables(split).into_iter();
    let mut results = results.map(|table| opened_marks(&split.after.store, table));
    results.try_for_each(|table| is_within(&table?, split))?;
    again_each(&Marks(subject), split)
}

/// The same where the split is not refused, and the table has a format that is split.
pub fn refused_or_pairs_guaranteed(
    subject: &impl Subject,
    split: &Split,
    tally: &mut Tally,
) -> Outcome {
    match answers::open(&split.before.store, split.before.table) {
        Ok(Some(_)) if split.answer == 0 => pairs_guaranteed(subject, split, tally),
        _ => refused(split, tally),
    }
}

/// The same of a MarkBasePos table.
pub fn refused_or_marks_guaranteed(
    subject: &impl MarkSubject,
    split: &Split,
    tally: &mut Tally,
) -> Outcome {
    match answers::open_marks(&split.before.store, split.before.table) {
        Ok(Some(_)) if split.answer == 0 => marks_guaranteed(subject, split, tally),
        _ => refused(split, tally),
    }
}

fn refused(split: &Split, tally: &mut Tally) -> Outcome {
    tally.answers[split.answer as usize] += 1;
    Ok(())
}

/// The cuts are within the limit by the edition's own measure, and where that has to hold, no list that is
/// within it has fewer.
fn cuts_are_within(
    old: &impl Opened,
    split: &Split,
    are_fewest: bool,
    tally: &mut Tally,
) -> Outcome {
    tally.add(split.answer, &old.weigh(Edition::Second), None);
    tally.add_editions(old);
    if old.item_count() > MOST_MEASURED {
        return Ok(());
    }
    let cuts: Vec<usize> = split.places.iter().map(|&place| place.into()).collect();
    let measured = Measured::of(old);
    ensure(measured.is_within(&cuts), || {
        format!("cuts {cuts:?} are not within the limit")
    })?;
    let fewest = measured.fewest_cuts();
    if old.item_count() <= MOST_LISTED {
        let lists = measured.lists_within();
        let shortest = lists.iter().map(Vec::len).min();
        ensure(shortest == Some(fewest) && lists.contains(&cuts), || {
            format!("of the lists {lists:?} none has {fewest} cuts, or is {cuts:?}")
        })?;
        tally.listed += 1;
    }
    ensure(!are_fewest || fewest == cuts.len(), || {
        format!("cuts {cuts:?}, where {fewest} are enough")
    })
}

/// A table that a cut has left is within the limit, if it has two or more items.
fn is_within(table: &impl Opened, split: &Split) -> Outcome {
    let bytes = table.together();
    let has_to_be = !split.places.is_empty() && table.item_count() > 1;
    ensure(!has_to_be || bytes < LIMIT, || {
        format!("table {}: {bytes} bytes", table.number())
    })
}

/// Splitting any of the tables again changes nothing. Of very many tables some are split.
pub fn again_each(subject: &impl Splits, split: &Split) -> Outcome {
    let mut tables = some_tables(split).into_iter();
    tables.try_for_each(|table| again_at(subject, split, table))
}
