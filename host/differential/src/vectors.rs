//! A sample of the answers, as text for the Rattle program `vectors` to replay.
//!
//! # How it is made
//!
//! [`sample`] takes hand-made stores, generated ones and damaged ones, lends each to the [`Model`](crate::Model),
//! and stores what a cut plan, a split and some readings answer and leave. Whatever is not
//! refused in the first edition is held against the oracle first: cut places and new tables are the oracle's
//! own, and the digest of a split is stored only where all that is reachable is as the oracle leaves it and
//! nothing else has changed. What the 16-bit product of the crate's text would change is left out; where
//! it keeps old offsets in the arrays of a MarkBasePos table, the zeros of the model are stored.
//! Refusals, readings and the cuts of the second edition are the model's, which is that of documents 01 and
//! 02: the oracle has none. What the second edition guarantees is checked before it is stored.
//!
//! # The text
//!
//! Numbers are decimal, of 32 bits. All that is no digit separates them, so the words are for
//! readers alone; no word has a digit. An array is its length and then its numbers, in runs: `5x0`
//! is five zeros, and a single number stands for itself.
//!
//! First come the length of the whole text in bytes and the number of cases. A case is
//!
//! | | |
//! |---|---|
//! | lookup type | 2 where the table is one of PairPos, 4 where it is one of MarkBasePos: which functions are called; 3 as 2, but that the split enters the new tables in lookups |
//! | lookup list | behind a 3 alone: the number of the list |
//! | table | the number of the table |
//! | edition | the number of the edition, by which both the cut plan and the split are called |
//! | counts, data, objects, links | the store as it is lent, each an array |
//! | pairs | how many there are; each is two glyphs, answer, found, and an array of the sixteen values, each raised by 65,536 |
//! | or attachments | how many there are; each is two glyphs, a mark's and a base's, answer, found, and an array of the two anchors |
//! | cut plan | what it is lent beside the store, then what it leaves |
//! | split | likewise |
//!
//! A call is lent the arrays list, walk, glyph set, glyphs, classes and cuts. It leaves an answer, a
//! digest, and an array of the first entries of its list: places or new tables. The digest is over
//! all that the call may write, as it leaves it: scratch in the order above; then, of a split, data,
//! objects, links and counts; then the list. It starts with 0, and each number n makes of a digest
//! d the next, (65,599 · d + n + 1) modulo 4,294,967,291.
//!
//! The readings hold before the split by the table, and after it by the first of the table and the new
//! tables that has a pair or an attachment, or else by the last of them.
//!
//! [`lookup_sample`] makes the cases that enter new tables in lookups. The program does not read these yet.

mod answers;
mod cases;
mod plain;
mod readings;
mod text;

use crate::{check::Outcome, tally::ANSWERS, Functions, Tally};
use answers::Answers;
use cases::Case;
use readings::Reading;
use splitter::Kind;
use text::Text;

/// Stored answers, and what came of making them.
#[derive(Clone, Debug, Default)]
pub struct Sample {
    /// What the program reads.
    pub input: String,
    /// What it writes, if all is as stored.
    pub output: String,
    /// The cases of pairs that the oracle was asked for.
    pub tally: Tally,
    /// Those of marks.
    pub mark_tally: Tally,
    /// How many cases are of marks.
    pub marks: usize,
    /// How many cases enter new tables in lookups.
    pub in_lookups: usize,
    /// Splits by kind: cut, refused by each number, nothing to cut.
    pub kinds: [usize; ANSWERS + 1],
    /// Stored pairs that are found, and those of them with a device.
    pub pairs_found: [usize; 2],
    /// Stored attachments that are found.
    pub attachments_found: usize,
}

/// Makes the sample, or says which case is not as the oracle has it.
pub fn sample() -> Result<Sample, String> {
    let mut sample = Sample::of(&cases::all())?;
    sample.output = output(&sample.kinds, "marks", sample.marks);
    Ok(sample)
}

/// The same of calls that enter new tables in lookups.
pub fn lookup_sample() -> Result<Sample, String> {
    let mut sample = Sample::of(&cases::in_lookups())?;
    sample.output = output(&sample.kinds, "lookups", sample.in_lookups);
    Ok(sample)
}

impl Sample {
    fn of(cases: &[Case]) -> Result<Self, String> {
        let mut sample = Self::default();
        let mut text = Text::default();
        for case in cases {
            let stored = sample.add(&mut text, case);
            stored.map_err(|reason| format!("{}: {reason}", case.name))?;
        }
        sample.input = text.finish(cases.len());
        Ok(sample)
    }

    fn add(&mut self, text: &mut Text, case: &Case) -> Outcome {
        let kind = case.functions.kind();
        let tally = match kind {
            Kind::Pairs => &mut self.tally,
            Kind::Marks => &mut self.mark_tally,
        };
        let answers = Answers::of(case, tally)?;
        tally.add_orders(&answers.split);
        self.kinds[answers.kind()] += 1;
        self.marks += usize::from(kind == Kind::Marks);
        self.in_lookups += usize::from(case.functions == Functions::InLookups);
        for reading in &answers.readings {
            self.count(kind, reading);
        }
        text.case(case, &answers);
        Ok(())
    }

    fn count(&mut self, kind: Kind, reading: &Reading) {
        match kind {
            Kind::Pairs => {
                let is_device = |place: usize| place % 8 >= 4;
                let has_device = (0..16).any(|at| is_device(at) && reading.numbers[at] != 65_536);
                self.pairs_found[0] += reading.found as usize;
                self.pairs_found[1] += usize::from(has_device);
            }
            Kind::Marks => self.attachments_found += reading.found as usize,
        }
    }
}

/// What the program writes of so many cases of each kind, of which so many are of something.
fn output(kinds: &[usize; ANSWERS + 1], what: &str, count: usize) -> String {
    let [cut, refused @ .., uncut] = kinds;
    let mut lines = vec![format!("cut: {cut}"), format!("nothing to cut: {uncut}")];
    let refused = refused.iter().enumerate();
    lines.extend(refused.map(|(i, count)| format!("refused by {}: {count}", i + 1)));
    lines.push(format!("cases: {}", kinds.iter().sum::<usize>()));
    lines.push(format!("cases of {what}: {count}"));
    lines.push("not as stored: 0\n".into());
    lines.join("\n")
}
