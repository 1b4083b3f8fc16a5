//! What a run asks of the store of one seed: whole, and damaged.

mod compaction;

pub use compaction::{compacted_damaged, compacted_whole, Everything};

use crate::{
    check::{
        again, again_each, all_agree, another_format, applied_agree, applied_stay, as_the_oracle,
        attachments_agree, attachments_stay, counted_alike, entered, frame, lookups_agree,
        marks_agree, marks_as_the_oracle, marks_guaranteed, pairs_agree, pairs_guaranteed,
        pairs_stay, refused_or_as_the_oracle, refused_or_marks_as_the_oracle,
        refused_or_marks_guaranteed, refused_or_pairs_guaranteed, MOST_TABLES,
    },
    check::{Outcome, Split},
    damage::{self, Damage},
    explained::as_answered,
    generate::{Case, Listed},
    lend, Call, Edition, Functions, InLookups, LookupSubject, MarkSubject, Marks, Random, Subject,
    Tally,
};
use splitter::Kind;

/// How often a store is damaged in one way, and how often at random.
const DAMAGES: usize = 4;
const SCRAMBLES: usize = 4;

/// A store that no check refuses: its call does what the model's does and, by the first edition, what the
/// oracle's does; by the second it keeps what that guarantees.
///
/// Half of the calls are lent exactly what they need.
pub fn whole(
    subject: &impl Subject,
    case: &Case,
    edition: Edition,
    seed: u64,
    tally: &mut Tally,
) -> Outcome {
    let mut random = Random::new(!seed);
    let lend = [lend::exactly, lend::amply][seed as usize % 2];
    let call = lend(&case.store, case.table, edition, &mut random);
    all_agree(subject, &call)?;
    let split = Split::by(subject, &call);
    match edition {
        Edition::First => as_the_oracle(&split, tally)?,
        Edition::Second => pairs_guaranteed(subject, &split, tally)?,
    }
    counted_alike(Kind::Pairs, &split)?;
    frame(&split)?;
    tally.add_orders(&split);
    again(subject, &split)?;
    if split.tables().len() <= MOST_TABLES {
        pairs_stay(&split, &mut random, tally)?;
    }
    pairs_agree(subject, &split, &mut random, tally)
}

/// The same of a MarkBasePos table. Under another format it is nothing to split.
pub fn marks_whole(
    subject: &impl MarkSubject,
    case: &Case,
    edition: Edition,
    seed: u64,
    tally: &mut Tally,
) -> Outcome {
    let mut random = Random::new(!seed);
    let lend = [lend::marks_exactly, lend::marks_amply][seed as usize % 2];
    let call = lend(&case.store, case.table, edition, &mut random);
    marks_agree(subject, &call)?;
    let split = Split::by(&Marks(subject), &call);
    match edition {
        Edition::First => marks_as_the_oracle(&split, tally)?,
        Edition::Second => marks_guaranteed(subject, &split, tally)?,
    }
    counted_alike(Kind::Marks, &split)?;
    frame(&split)?;
    tally.add_orders(&split);
    again(&Marks(subject), &split)?;
    another_format(subject, &split, random.pick(&[0, 2, 0x0100, 0xFFFF]))?;
    if split.tables().len() <= MOST_TABLES {
        attachments_stay(&split, &mut random, tally)?;
    }
    attachments_agree(subject, &split, &mut random, tally)
}

/// The same of a PairPos table whose new tables are entered in the lookups of a list.
pub fn lookups_whole(
    subject: &(impl Subject + LookupSubject),
    case: &Listed,
    edition: Edition,
    seed: u64,
    tally: &mut Tally,
) -> Outcome {
    let mut random = Random::new(!seed);
    let lend = [lend::in_lookups_exactly, lend::in_lookups_amply][seed as usize % 2];
    let call = lend(case, edition, &mut random);
    lookups_agree(subject, &call)?;
    let split = Split::by(&InLookups(subject), &call);
    let plain = Split::by(subject, &call);
    match edition {
        Edition::First => as_the_oracle(&plain, tally)?,
        Edition::Second => {
            pairs_guaranteed(subject, &plain, tally)?;
            again_each(&InLookups(subject), &split)?;
        }
    }
    entered(subject, &split, tally)?;
    tally.add_orders(&split);
    again(&InLookups(subject), &split)?;
    applied_stay(&split, &mut random, tally)?;
    applied_agree(subject, &split, &mut random, tally)
}

/// Damaged copies of a store's call: they are refused as by the model, for the reason that the host
/// library gives, and nothing changes.
///
/// What is damaged at random may still be split, and then it is split as by the oracle, or keeps what the
/// second edition guarantees.
pub fn damaged(
    subject: &impl Subject,
    case: &Case,
    edition: Edition,
    seed: u64,
    tally: &mut Tally,
) -> Outcome {
    let mut random = Random::new(seed.rotate_left(32));
    let call = lend::exactly(&case.store, case.table, edition, &mut random);
    let scramble = damage::scramble;
    damage_each(&call, &damage::all(), scramble, &mut random, |call| {
        all_agree(subject, call)?;
        as_answered(Functions::Of(Kind::Pairs), call)?;
        let split = Split::by(subject, call);
        frame(&split)?;
        match Edition::of(call.edition) {
            Some(Edition::Second) => refused_or_pairs_guaranteed(subject, &split, tally)?,
            _ => refused_or_as_the_oracle(&split, tally)?,
        }
        Ok(split.answer)
    })
}

/// The same of a MarkBasePos table.
pub fn marks_damaged(
    subject: &impl MarkSubject,
    case: &Case,
    edition: Edition,
    seed: u64,
    tally: &mut Tally,
) -> Outcome {
    let mut random = Random::new(seed.rotate_left(32));
    let call = lend::marks_exactly(&case.store, case.table, edition, &mut random);
    let scramble = damage::scramble;
    damage_each(&call, &damage::marks(), scramble, &mut random, |call| {
        marks_agree(subject, call)?;
        as_answered(Functions::Of(Kind::Marks), call)?;
        let split = Split::by(&Marks(subject), call);
        frame(&split)?;
        match Edition::of(call.edition) {
            Some(Edition::Second) => refused_or_marks_guaranteed(subject, &split, tally)?,
            _ => refused_or_marks_as_the_oracle(&split, tally)?,
        }
        Ok(split.answer)
    })
}

/// The same of a PairPos table in the lookups of a list.
pub fn lookups_damaged(
    subject: &(impl Subject + LookupSubject),
    case: &Listed,
    edition: Edition,
    seed: u64,
    tally: &mut Tally,
) -> Outcome {
    let mut random = Random::new(seed.rotate_left(32));
    let call = lend::in_lookups_exactly(case, edition, &mut random);
    let mut others = random.clone();
    let scramble = damage::scramble_lookups;
    damage_each(&call, &damage::lookups(), scramble, &mut random, |call| {
        lookups_agree(subject, call)?;
        as_answered(Functions::InLookups, call)?;
        let split = Split::by(&InLookups(subject), call);
        tally.answers[split.answer as usize] += 1;
        entered(subject, &split, tally)?;
        applied_stay(&split, &mut others, tally)?;
        Ok(split.answer)
    })
}

/// Damages a call in a few ways; `settle` says what is answered, if all is well.
fn damage_each(
    call: &Call<u32>,
    damages: &[Damage],
    scramble: fn(&Call<u32>, &mut Random) -> Call<u32>,
    random: &mut Random,
    mut settle: impl FnMut(&Call<u32>) -> Result<u32, String>,
) -> Outcome {
    for _ in 0..DAMAGES {
        let damage = random.pick(damages);
        if let Some(call) = damage.apply(call, random) {
            let refused = settle(&call).and_then(|given| match damage.answers[0] {
                answer if answer == given => Ok(()),
                answer => Err(format!("answer {given}, not {answer}")),
            });
            refused.map_err(|reason| format!("{}: {reason}", damage.name))?;
        }
    }
    for _ in 0..SCRAMBLES {
        let settled = settle(&scramble(call, random));
        settled.map_err(|reason| format!("at random: {reason}"))?;
    }
    Ok(())
}
