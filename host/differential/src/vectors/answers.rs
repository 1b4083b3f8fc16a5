//! What a stored call answers and leaves, as the oracle has it, or in the second edition the model.

use super::{
    cases::Case,
    readings::{self, Reading},
};
use crate::{
    check::{
        as_the_oracle, entered, frame, marks_as_the_oracle, refused_or_marks_guaranteed,
        refused_or_pairs_guaranteed, Split,
    },
    model::answers,
    product,
    tally::ANSWERS,
    Call, Edition, Functions, InLookups, Marks, Model, Scratch, Splits, Tally,
};
use splitter::Kind;

/// All that is stored of a call beside what it is lent.
#[derive(Debug)]
pub struct Answers {
    /// The split, before and after.
    pub split: Split,
    /// The first entries of its list.
    pub new_tables: Vec<u32>,
    /// Over all that the split may write.
    pub split_digest: u32,
    /// The answer of the cut plan.
    pub plan_answer: u32,
    /// The first entries of its list.
    pub places: Vec<u16>,
    /// Over all that the cut plan may write.
    pub plan_digest: u32,
    /// What the table says of some glyphs.
    pub readings: Vec<Reading>,
}

impl Answers {
    /// What the model answers, if it is what the oracle answers or what the second edition guarantees.
    pub fn of(case: &Case, tally: &mut Tally) -> Result<Self, String> {
        let is_second = case.call.edition == Edition::Second.number();
        let [pairs, marks, lookups]: [Expected; 3] = match is_second {
            false => [
                pairs_by_the_oracle,
                marks_by_the_oracle,
                lookups_by_the_oracle,
            ],
            true => [pairs_by_the_model, marks_by_the_model, lookups_by_the_model],
        };
        match case.functions {
            Functions::Of(Kind::Pairs) => Self::by(&Model, case, pairs, tally),
            Functions::Of(Kind::Marks) => Self::by(&Marks(&Model), case, marks, tally),
            Functions::InLookups => Self::by(&InLookups(&Model), case, lookups, tally),
        }
    }

    fn by(
        model: &impl Splits,
        case: &Case,
        expected: Expected,
        tally: &mut Tally,
    ) -> Result<Self, String> {
        let split = Split::by(model, &case.call);
        let mut plan = case.call.to_plan();
        let plan_answer = model.plan(&mut plan);
        if split.answer != 0 {
            frame(&split)?;
        }
        let (mut new_tables, mut places) = (Vec::new(), Vec::new());
        if plan_answer == 0 {
            (new_tables, places) = expected(&split, tally)?;
        }
        if split.answer != 0 {
            new_tables.clear();
        }
        if split.places != places || split.new_tables() != new_tables {
            return Err("other cuts than those expected".into());
        }
        let kind = case.functions.kind();
        let readings = readings::stored(kind, &split);
        readings::stay(kind, &split, &readings)?;
        Ok(Self {
            split_digest: split_digest(&split.after),
            plan_digest: Digest::of(&plan.scratch).with(&plan.list).0,
            split,
            new_tables,
            plan_answer,
            places,
            readings,
        })
    }

    /// 0 where the table is cut, the answer where the split is refused, the number behind all answers where
    /// there is nothing to cut.
    pub fn kind(&self) -> usize {
        match (self.split.answer, self.new_tables.len()) {
            (0, 0) => ANSWERS,
            (answer, _) => answer as usize,
        }
    }
}

/// The new tables and cut places that are expected of a call whose cut plan is not refused.
type Expected = fn(&Split, &mut Tally) -> Result<(Vec<u32>, Vec<u16>), String>;

fn pairs_by_the_oracle(split: &Split, tally: &mut Tally) -> Result<(Vec<u32>, Vec<u16>), String> {
    let (store, table) = (&split.before.store, split.before.table);
    let theirs = oracle::split(store, table as usize).map_err(|error| format!("{error:?}"))?;
    let pairpos = answers::open(store, table).map_err(|refusal| format!("{refusal:?}"))?;
    if let Some(pairpos) = pairpos {
        if product::shows(&pairpos, &theirs.cuts) == Some(true) {
            return Err("the 16-bit product shows".into());
        }
        if split.answer == 0 {
            frame(split)?;
            as_the_oracle(split, tally)?;
        }
    }
    let new_tables = theirs.new_tables.iter().map(|&table| table as u32);
    Ok((new_tables.collect(), theirs.cuts))
}

/// The text knows no lookups: what it splits is the table alone.
fn lookups_by_the_oracle(split: &Split, tally: &mut Tally) -> Result<(Vec<u32>, Vec<u16>), String> {
    entered(&Model, split, tally)?;
    let plain = Split::by(&Model, &split.before);
    pairs_by_the_oracle(&plain, tally)
}

/// The text splits any format, and adds two arrays before its first new table.
fn marks_by_the_oracle(split: &Split, tally: &mut Tally) -> Result<(Vec<u32>, Vec<u16>), String> {
    let (store, table) = (&split.before.store, split.before.table);
    let marks = answers::open_marks(store, table).map_err(|refusal| format!("{refusal:?}"))?;
    if marks.is_none() {
        return Ok((Vec::new(), Vec::new()));
    }
    let theirs = oracle::split_markbase(store, table as usize);
    let theirs = theirs.map_err(|error| format!("{error:?}"))?;
    if split.answer == 0 {
        frame(split)?;
        marks_as_the_oracle(split, tally)?;
    }
    let new_tables = theirs.new_tables.iter().map(|&table| table as u32 - 2);
    Ok((new_tables.collect(), theirs.cuts))
}

fn pairs_by_the_model(split: &Split, tally: &mut Tally) -> Result<(Vec<u32>, Vec<u16>), String> {
    frame(split)?;
    refused_or_pairs_guaranteed(&Model, split, tally)?;
    Ok((split.new_tables().to_vec(), split.places.clone()))
}

fn marks_by_the_model(split: &Split, tally: &mut Tally) -> Result<(Vec<u32>, Vec<u16>), String> {
    frame(split)?;
    refused_or_marks_guaranteed(&Model, split, tally)?;
    Ok((split.new_tables().to_vec(), split.places.clone()))
}

fn lookups_by_the_model(split: &Split, tally: &mut Tally) -> Result<(Vec<u32>, Vec<u16>), String> {
    entered(&Model, split, tally)?;
    let plain = Split::by(&Model, &split.before);
    pairs_by_the_model(&plain, tally)
}

fn split_digest(call: &Call<u32>) -> u32 {
    let store = &call.store;
    let digest = Digest::of(&call.scratch)
        .with(&store.data)
        .with(&store.objects)
        .with(&store.links)
        .with(&store.counts)
        .with(&call.list);
    digest.0
}

struct Digest(u32);

impl Digest {
    fn of(scratch: &Scratch) -> Self {
        Self(0)
            .with(&scratch.walk)
            .with(&scratch.glyph_set)
            .with(&scratch.glyphs)
            .with(&scratch.classes)
            .with(&scratch.cuts)
    }

    fn with<N: Copy + Into<u32>>(self, numbers: &[N]) -> Self {
        let numbers = numbers.iter().map(|&number| u64::from(number.into()));
        let mix = |digest: u64, number| (65_599 * digest + number + 1) % 4_294_967_291;
        Self(numbers.fold(u64::from(self.0), mix) as u32)
    }
}
