//! What kept objects say of two glyphs, before a compaction and after it.

use super::{Compacted, Numbers};
use crate::{
    check::{
        attachments::some_glyphs,
        ensure,
        lookups::apply,
        pairs::{first_glyphs, second_glyphs},
        Outcome,
    },
    model::{
        answers::{open_marks, open_to_read, Opening},
        lookups::{self, applied::Subtables},
        marks::{attachments, MarkBasePos},
        objects::Objects,
        pairs,
        table::PairPos,
    },
    Attachment, MarkSubject, Pair, Random, Subject, Tally,
};
use oracle::Store;
use std::fmt::Debug;

/// How many readings of an object are another subject's.
const READINGS: usize = 6;

/// The kept objects of a compaction, to be read.
#[derive(Clone, Debug)]
pub struct Readings<'a> {
    before: &'a Store,
    after: &'a Store,
    /// Their numbers.
    pub numbers: Numbers,
}

impl<'a> Readings<'a> {
    /// Those of a compaction that was not refused.
    pub fn of(compacted: &'a Compacted) -> Result<Self, String> {
        Ok(Self {
            before: &compacted.before.store,
            after: &compacted.after.store,
            numbers: Numbers::of(compacted)?,
        })
    }

    /// An object, read as a PairPos table by the model and by a subject, gives the pairs that it gave, with
    /// devices under their new numbers; or it is refused as it was.
    pub fn pairs_stay(
        &self,
        subject: &impl Subject,
        object: u32,
        random: &mut Random,
        tally: &mut Tally,
    ) -> Outcome {
        let read = |store: &Store, table, glyphs| {
            let mut pair = Pair::default();
            let answer = subject.read_pair(store, table, glyphs, &mut pair);
            (answer, pair)
        };
        let tables = self.opened(object, open_to_read)?;
        let glyphs = tables.as_ref().map(|[old, _]| glyphs_of_pairs(old, random));
        self.stay(object, tables, glyphs, pairs::read, read, random, tally)
    }

    /// The same as a MarkBasePos table: attachments, with anchors under their new numbers.
    pub fn attachments_stay(
        &self,
        subject: &impl MarkSubject,
        object: u32,
        random: &mut Random,
        tally: &mut Tally,
    ) -> Outcome {
        let read = |store: &Store, table, glyphs| {
            let mut attachment = Attachment::default();
            let answer = subject.read_mark(store, table, glyphs, &mut attachment);
            (answer, attachment)
        };
        let attached = |marks: &_, [mark, base]: [u16; 2]| attachments::read(marks, mark, base);
        let tables = self.opened(object, open_marks)?;
        let glyphs = tables.as_ref().map(|[old, _]| glyphs_of_marks(old, random));
        self.stay(object, tables, glyphs, attached, read, random, tally)
    }

    /// An object before and after, if it is a table that can be read; otherwise it is refused alike.
    fn opened<T>(
        &self,
        object: u32,
        open: fn(&'a Store, u32) -> Opening<T>,
    ) -> Result<Option<[T; 2]>, String> {
        match (
            open(self.before, object),
            open(self.after, self.now(object)?),
        ) {
            (Ok(Some(old)), Ok(Some(new))) => Ok(Some([old, new])),
            (Ok(None), Ok(None)) => Ok(None),
            (Err(before), Err(after)) if before == after => Ok(None),
            (before, after) => Err(format!(
                "object {object}: refused by {:?}, not {:?}",
                after.err(),
                before.err()
            )),
        }
    }

    /// All readings of these glyphs by the model stay, and some by a subject.
    #[expect(clippy::too_many_arguments)]
    fn stay<T, R: Reading>(
        &self,
        object: u32,
        tables: Option<[T; 2]>,
        glyphs: Option<Vec<[u16; 2]>>,
        model: impl Fn(&T, [u16; 2]) -> R,
        subject: impl Fn(&Store, u32, [u16; 2]) -> (u32, R),
        random: &mut Random,
        tally: &mut Tally,
    ) -> Outcome {
        let glyphs = glyphs.unwrap_or(vec![[0, 0]]);
        if let Some([old, new]) = tables {
            for &glyphs in &glyphs {
                let (before, after) = (model(&old, glyphs), model(&new, glyphs));
                self.same(object, glyphs, before, after, tally)?;
            }
        }
        let now = self.now(object)?;
        for _ in 0..READINGS.min(glyphs.len()) {
            let glyphs = random.pick(&glyphs);
            let (answer, before) = subject(self.before, object, glyphs);
            let (answer_now, after) = subject(self.after, now, glyphs);
            ensure(answer == answer_now, || {
                format!("object {object}: answer {answer_now}, not {answer}")
            })?;
            self.same(object, glyphs, before, after, tally)?;
        }
        Ok(())
    }

    /// Each lookup of a kept list, applied by the model and by a subject, says what it said.
    pub fn lookups_stay(
        &self,
        subject: &impl Subject,
        list: u32,
        random: &mut Random,
        tally: &mut Tally,
    ) -> Outcome {
        let lookups = Objects::of(self.before).and_then(|objects| lookups::read(objects, list));
        let lookups = lookups.ok_or_else(|| format!("{list} was no lookup list"))?;
        lookups
            .iter()
            .try_for_each(|lookup| self.lookup_stays(subject, lookup.number, random, tally))
    }

    fn lookup_stays(
        &self,
        subject: &impl Subject,
        lookup: u32,
        random: &mut Random,
        tally: &mut Tally,
    ) -> Outcome {
        let now = self.now(lookup)?;
        let old = Subtables::of(self.before, lookup).ok_or("it was no lookup")?;
        let new = Subtables::of(self.after, now).ok_or("it is no lookup")?;
        let listed = old.numbers().iter().map(|&table| self.numbers.now(table));
        ensure(listed.eq(new.numbers().iter().copied().map(Some)), || {
            format!("lookup {lookup} lists {:?} now", new.numbers())
        })?;
        let Some(table) = old.readable().next() else {
            return Ok(());
        };
        let glyphs = glyphs_of_pairs(table, random);
        for place in 0..READINGS * READINGS {
            let glyphs = random.pick(&glyphs);
            let (before, after) = match place < READINGS {
                true => (
                    apply(subject, self.before, old.numbers(), glyphs),
                    apply(subject, self.after, new.numbers(), glyphs),
                ),
                false => (old.apply(glyphs), new.apply(glyphs)),
            };
            self.same(lookup, glyphs, before, after, tally)?;
        }
        Ok(())
    }

    fn now(&self, object: u32) -> Result<u32, String> {
        let now = self.numbers.now(object);
        now.ok_or_else(|| format!("object {object} is not kept"))
    }

    fn same<R: Reading>(
        &self,
        object: u32,
        glyphs: [u16; 2],
        before: R,
        after: R,
        tally: &mut Tally,
    ) -> Outcome {
        tally.readings += 1;
        tally.found += before.found() as usize;
        let expected = before.renumbered(&self.numbers);
        ensure(after == expected, || {
            format!("object {object}, glyphs {glyphs:?}: {after:?}, not {expected:?}")
        })
    }
}

fn glyphs_of_pairs(table: &PairPos, random: &mut Random) -> Vec<[u16; 2]> {
    let firsts = first_glyphs(table, random);
    both(&firsts, &second_glyphs(table, random))
}

fn glyphs_of_marks(table: &MarkBasePos, random: &mut Random) -> Vec<[u16; 2]> {
    let marks = some_glyphs(&table.mark_glyphs, random);
    both(&marks, &some_glyphs(&table.base_glyphs, random))
}

fn both(firsts: &[u16], seconds: &[u16]) -> Vec<[u16; 2]> {
    let firsts = firsts.iter();
    let both = firsts.flat_map(|&first| seconds.iter().map(move |&second| [first, second]));
    both.collect()
}

/// What is read of two glyphs.
trait Reading: Copy + Debug + PartialEq {
    /// 1 where something was found.
    fn found(&self) -> u32;

    /// The same, with objects under their new numbers.
    fn renumbered(self, numbers: &Numbers) -> Self;
}

impl Reading for Pair {
    fn found(&self) -> u32 {
        self.found
    }

    fn renumbered(mut self, numbers: &Numbers) -> Self {
        for values in self.values.chunks_exact_mut(8) {
            for device in &mut values[4..] {
                *device = plus_one(numbers, *device as u32) as i32;
            }
        }
        self
    }
}

impl Reading for Attachment {
    fn found(&self) -> u32 {
        self.found
    }

    fn renumbered(mut self, numbers: &Numbers) -> Self {
        self.anchors = self.anchors.map(|anchor| plus_one(numbers, anchor));
        self
    }
}

/// The new number of an object plus one, from the old one plus one; 0 is none, and stays so.
fn plus_one(numbers: &Numbers, number: u32) -> u32 {
    match number.checked_sub(1) {
        Some(object) => numbers.now(object).map_or(u32::MAX, |now| now + 1),
        None => 0,
    }
}
