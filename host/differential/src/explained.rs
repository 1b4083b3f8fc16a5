//! The host library's explanations of refusals, held to the proved functions.

mod mend;

pub use mend::mend;

use crate::{
    check::Outcome, Archive, Attachment, Call, CompactSubject, Compaction, Functions,
    LookupSubject, MarkSubject, Pair, Scratch, Subject,
};
use oracle::Store;
use splitter::{
    explain::{self, Lent},
    Explanation, Kind, StoreRef,
};

/// A store as the library reads it.
pub fn lent(store: &Store) -> StoreRef<'_> {
    StoreRef::new(&store.data, &store.objects, &store.links, &store.counts)
}

/// Why a split, a cut plan and a reading are refused, if they are.
pub fn explanations(functions: Functions, call: &Call<u32>) -> [Explanation; 3] {
    let edition = call.edition;
    let lent = lengths(&call.scratch, call.list.len());
    let list = call.lookup_list;
    let split = match functions {
        Functions::Of(_) => explain::Call::Split { edition, lent },
        Functions::InLookups => explain::Call::InLookups {
            list,
            edition,
            lent,
        },
    };
    let calls = [
        split,
        explain::Call::Plan { edition, lent },
        explain::Call::Reading,
    ];
    let (kind, store) = (functions.kind(), self::lent(&call.store));
    calls.map(|asked| kind.explain_call(asked, store, call.table))
}

fn lengths(scratch: &Scratch, list: usize) -> Lent {
    Lent {
        walk: scratch.walk.len(),
        glyph_set: scratch.glyph_set.len(),
        glyphs: scratch.glyphs.len(),
        classes: scratch.classes.len(),
        cuts: scratch.cuts.len(),
        list,
    }
}

/// What the proved functions answer to a split, a cut plan and a reading.
pub fn proved_answers(functions: Functions, call: &Call<u32>) -> [u32; 3] {
    let (mut split, mut plan) = (call.clone(), call.to_plan());
    let (store, table) = (&call.store, call.table);
    let answer = match functions {
        Functions::Of(Kind::Pairs) => Archive.split_pairpos(&mut split),
        Functions::Of(Kind::Marks) => Archive.split_markbasepos(&mut split),
        Functions::InLookups => Archive.split_in_lookups(&mut split),
    };
    let [of_plan, of_reading] = match functions.kind() {
        Kind::Pairs => [
            Archive.cut_plan(&mut plan),
            Archive.read_pair(store, table, [0; 2], &mut Pair::default()),
        ],
        Kind::Marks => [
            Archive.cut_plan_markbasepos(&mut plan),
            Archive.read_mark(store, table, [0; 2], &mut Attachment::default()),
        ],
    };
    [answer, of_plan, of_reading]
}

/// The numbers that are explained are the proved functions' answers.
pub fn as_answered(functions: Functions, call: &Call<u32>) -> Outcome {
    let explanations = explanations(functions, call);
    let [ours, proved] = [
        explanations.each_ref().map(Explanation::number),
        proved_answers(functions, call),
    ];
    match ours == proved {
        true => Ok(()),
        false => Err(format!(
            "explained as {ours:?}, answered by {proved:?}: {}",
            explanations
                .map(|explanation| explanation.to_string())
                .join("; ")
        )),
    }
}

/// The same of a compaction.
pub fn compaction_as_answered(call: &Compaction) -> Outcome {
    let store = lent(&call.store);
    let explanation = explain::explain_compaction_lent(store, &call.roots, call.walk.len());
    let (ours, proved) = (explanation.number(), Archive.compact(&mut call.clone()));
    match ours == proved {
        true => Ok(()),
        false => Err(format!(
            "explained as {ours}, answered by {proved}: {explanation}"
        )),
    }
}
