//! Pairs before and after a split.

use super::{ensure, opened, some_tables, Outcome, Split};
use crate::{
    model::{pairs::read, table::PairPos},
    Pair, Random, Subject, Tally,
};
use oracle::Store;

/// The kept and then the new tables give the pairs that the old table gave.
pub fn pairs_stay(split: &Split, random: &mut Random, tally: &mut Tally) -> Outcome {
    let old = opened(&split.before.store, split.before.table)?;
    let new = split.tables().into_iter();
    let new = new.map(|table| opened(&split.after.store, table));
    let new: Vec<PairPos> = new.collect::<Result<_, _>>()?;
    let seconds = second_glyphs(&old, random);
    for first in first_glyphs(&old, random) {
        for &second in &seconds {
            let before = read(&old, [first, second]);
            let after = first_pair(&new, [first, second]);
            tally.readings += 1;
            tally.found += before.found as usize;
            ensure(before == after, || {
                format!("glyphs {first}, {second}: {after:?}, not {before:?}")
            })?;
        }
    }
    Ok(())
}

/// A subject reads of each table, before and after a split, what the model reads of it. Of very many tables some are read.
pub fn pairs_agree(
    subject: &impl Subject,
    split: &Split,
    random: &mut Random,
    tally: &mut Tally,
) -> Outcome {
    let (before, after) = (&split.before, &split.after);
    let old = opened(&before.store, before.table)?;
    let (firsts, seconds) = (first_glyphs(&old, random), second_glyphs(&old, random));
    let mut reads_agree = |store: &Store, table: u32| {
        let pairpos = opened(store, table)?;
        for _ in 0..PAIRS {
            let glyphs = [random.pick(&firsts), random.pick(&seconds)];
            let mut ours = Pair::default();
            let answer = subject.read_pair(store, table, glyphs, &mut ours);
            let theirs = read(&pairpos, glyphs);
            tally.readings += 1;
            tally.found += theirs.found as usize;
            ensure(answer == 0, || format!("table {table}: answer {answer}"))?;
            ensure(ours == theirs, || {
                format!("table {table}, glyphs {glyphs:?}: {ours:?}, not {theirs:?}")
            })?;
        }
        Ok(())
    };
    reads_agree(&before.store, before.table)?;
    some_tables(split)
        .into_iter()
        .try_for_each(|table| reads_agree(&after.store, table))
}

/// How many pairs of a table are read by another subject.
const PAIRS: usize = 24;

/// The first table with a pair decides.
fn first_pair(tables: &[PairPos], glyphs: [u16; 2]) -> Pair {
    let mut pairs = tables.iter().map(|table| read(table, glyphs));
    pairs.find(|pair| pair.found == 1).unwrap_or_default()
}

/// Covered glyphs, all of them or many, and some others.
pub(super) fn first_glyphs(pairpos: &PairPos, random: &mut Random) -> Vec<u16> {
    let mut glyphs = pairpos.parts.glyphs.clone();
    random.shuffle(&mut glyphs);
    glyphs.truncate(40);
    glyphs.extend([0, u16::MAX, random.number() as u16]);
    glyphs
}

/// Glyphs that class definition 2 names, those that pair sets have, and some others.
pub(super) fn second_glyphs(pairpos: &PairPos, random: &mut Random) -> Vec<u16> {
    let class_defs = pairpos.parts.class_defs.iter();
    let named = class_defs.flat_map(|class_defs| class_defs.second.named());
    let mut glyphs: Vec<u16> = named.map(|(glyph, _)| glyph).collect();
    random.shuffle(&mut glyphs);
    glyphs.truncate(12);
    glyphs.extend(0..12);
    glyphs.extend([u16::MAX, random.number() as u16]);
    glyphs
}
