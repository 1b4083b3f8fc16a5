//! Against the model, to the last number.

use super::{ensure, Outcome};
use crate::{
    Attachment, Call, InLookups, LookupSubject, MarkSubject, Marks, Model, Pair, Splits, Subject,
};
use oracle::Store;
use std::fmt::Debug;

/// A split, a cut plan and a pair reading answer and leave what the model's do.
pub fn all_agree(subject: &impl Subject, call: &Call<u32>) -> Outcome {
    split_agrees(subject, call)?;
    plan_agrees(subject, &call.to_plan())?;
    pair_agrees(subject, &call.store, call.table, [0, 0])
}

/// A split, a cut plan and an attachment reading answer and leave what the model's do.
pub fn marks_agree(subject: &impl MarkSubject, call: &Call<u32>) -> Outcome {
    let (ours, theirs) = (Marks(subject), Marks(&Model));
    splits_agree(&ours, &theirs, call)?;
    plans_agree(&ours, &theirs, &call.to_plan())?;
    attachment_agrees(subject, &call.store, call.table, [0, 0])
}

/// A split that enters new tables in lookups answers and leaves what the model's does.
pub fn lookups_agree(subject: &(impl Subject + LookupSubject), call: &Call<u32>) -> Outcome {
    splits_agree(&InLookups(subject), &InLookups(&Model), call)
}

/// A split answers and leaves what the model's does.
pub fn split_agrees(subject: &impl Subject, call: &Call<u32>) -> Outcome {
    splits_agree(subject, &Model, call)
}

/// A cut plan answers and leaves what the model's does.
pub fn plan_agrees(subject: &impl Subject, call: &Call<u16>) -> Outcome {
    plans_agree(subject, &Model, call)
}

fn splits_agree(subject: &impl Splits, model: &impl Splits, call: &Call<u32>) -> Outcome {
    let (mut ours, mut theirs) = (call.clone(), call.clone());
    let answers = [subject.split(&mut ours), model.split(&mut theirs)];
    agree(answers, ours.difference(&theirs))
}

fn plans_agree(subject: &impl Splits, model: &impl Splits, call: &Call<u16>) -> Outcome {
    let (mut ours, mut theirs) = (call.clone(), call.clone());
    let answers = [subject.plan(&mut ours), model.plan(&mut theirs)];
    agree(answers, ours.difference(&theirs))
}

/// A pair reading answers and gives what the model's does.
pub fn pair_agrees(subject: &impl Subject, store: &Store, table: u32, glyphs: [u16; 2]) -> Outcome {
    let junk = Pair {
        values: [0x5A5A; 16],
        found: 0x5A5A,
    };
    let [mut ours, mut theirs] = [junk; 2];
    let answers = [
        subject.read_pair(store, table, glyphs, &mut ours),
        Model.read_pair(store, table, glyphs, &mut theirs),
    ];
    agree(answers, unlike(&ours, &theirs))
}

/// An attachment reading answers and gives what the model's does.
pub fn attachment_agrees(
    subject: &impl MarkSubject,
    store: &Store,
    table: u32,
    glyphs: [u16; 2],
) -> Outcome {
    let junk = Attachment {
        anchors: [0x5A5A; 2],
        found: 0x5A5A,
    };
    let [mut ours, mut theirs] = [junk; 2];
    let answers = [
        subject.read_mark(store, table, glyphs, &mut ours),
        Model.read_mark(store, table, glyphs, &mut theirs),
    ];
    agree(answers, unlike(&ours, &theirs))
}

fn unlike<R: Debug + PartialEq>(ours: &R, theirs: &R) -> Option<String> {
    (ours != theirs).then(|| format!("{ours:?}, not {theirs:?}"))
}

pub(super) fn agree([ours, theirs]: [u32; 2], difference: Option<String>) -> Outcome {
    ensure(ours == theirs, || format!("answer {ours}, not {theirs}"))?;
    difference.map_or(Ok(()), Err)
}
