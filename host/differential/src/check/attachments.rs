//! Attachments before and after a split.

use super::{ensure, opened_marks, some_tables, Outcome, Split};
use crate::{
    model::marks::{attachments::read, MarkBasePos},
    Attachment, MarkSubject, Random, Tally,
};
use oracle::Store;

/// The kept and then the new tables give the anchors that the old table gave.
pub fn attachments_stay(split: &Split, random: &mut Random, tally: &mut Tally) -> Outcome {
    let old = opened_marks(&split.before.store, split.before.table)?;
    let new = split.tables().into_iter();
    let new = new.map(|table| opened_marks(&split.after.store, table));
    let new: Vec<MarkBasePos> = new.collect::<Result<_, _>>()?;
    let bases = some_glyphs(&old.base_glyphs, random);
    for mark in some_glyphs(&old.mark_glyphs, random) {
        for &base in &bases {
            let before = read(&old, mark, base);
            let after = first_attachment(&new, mark, base);
            tally.readings += 1;
            tally.found += before.found as usize;
            ensure(before == after, || {
                format!("glyphs {mark}, {base}: {after:?}, not {before:?}")
            })?;
        }
    }
    Ok(())
}

/// A subject reads of each table, before and after a split, what the model reads of it. Of very many
/// tables some are read.
pub fn attachments_agree(
    subject: &impl MarkSubject,
    split: &Split,
    random: &mut Random,
    tally: &mut Tally,
) -> Outcome {
    let (before, after) = (&split.before, &split.after);
    let old = opened_marks(&before.store, before.table)?;
    let marks = some_glyphs(&old.mark_glyphs, random);
    let bases = some_glyphs(&old.base_glyphs, random);
    let mut reads_agree = |store: &Store, table: u32| {
        let opened = opened_marks(store, table)?;
        for _ in 0..READINGS {
            let [mark, base] = [random.pick(&marks), random.pick(&bases)];
            let mut ours = Attachment::default();
            let answer = subject.read_mark(store, table, [mark, base], &mut ours);
            let theirs = read(&opened, mark, base);
            tally.readings += 1;
            tally.found += theirs.found as usize;
            ensure(answer == 0, || format!("table {table}: answer {answer}"))?;
            ensure(ours == theirs, || {
                format!("table {table}, glyphs {mark}, {base}: {ours:?}, not {theirs:?}")
            })?;
        }
        Ok(())
    };
    reads_agree(&before.store, before.table)?;
    some_tables(split)
        .into_iter()
        .try_for_each(|table| reads_agree(&after.store, table))
}

/// How many attachments of a table are read by another subject.
const READINGS: usize = 24;

/// The first table with an attachment decides.
fn first_attachment(tables: &[MarkBasePos], mark: u16, base: u16) -> Attachment {
    let mut attachments = tables.iter().map(|table| read(table, mark, base));
    let found = attachments.find(|attachment| attachment.found == 1);
    found.unwrap_or_default()
}

/// Covered glyphs, all of them or many, and some others.
pub(super) fn some_glyphs(covered: &[u16], random: &mut Random) -> Vec<u16> {
    let mut glyphs = covered.to_vec();
    random.shuffle(&mut glyphs);
    glyphs.truncate(25);
    glyphs.extend([0, u16::MAX, random.number() as u16]);
    glyphs
}
