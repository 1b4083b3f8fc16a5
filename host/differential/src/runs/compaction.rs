//! Compactions of the store of one seed: whole, behind a split, and damaged.

use super::{DAMAGES, SCRAMBLES};
use crate::{
    check::{
        again, compacted_again, compaction_agrees, freed_room_is_used, kept, Compacted, Outcome,
        Readings, Split,
    },
    damage::{self, CompactDamage},
    explained::compaction_as_answered,
    generate, lend, Call, CompactSubject, Compaction, Functions, InLookups, LookupSubject,
    MarkSubject, Marks, Random, Splits, Subject, Tally,
};
use splitter::Kind;

/// Does everything.
pub trait Everything: Subject + MarkSubject + LookupSubject + CompactSubject {}

impl<S: Subject + MarkSubject + LookupSubject + CompactSubject> Everything for S {}

/// How many kept objects are read that are no tables.
const OTHERS: usize = 3;

/// A store that is sound: its compaction does what the model's does, and every kept table says what it said.
/// Then its table is split, what is left is compacted, and the kept table split again, which changes nothing;
/// and what a compaction frees is room for a split.
///
/// The call is of a split by these functions, and is lent exactly what it needs.
pub fn compacted_whole(
    subject: &impl Everything,
    functions: Functions,
    call: &Call<u32>,
    seed: u64,
    tally: &mut Tally,
) -> Outcome {
    let mut random = Random::new(!seed);
    let named = named(functions, call);
    let roots = generate::roots(&call.store, &named, &mut random);
    let lend = [lend::compaction_exactly, lend::compaction_amply][seed as usize % 2];
    let compaction = lend(&call.store, roots, &mut random);
    let compacted = compacted(subject, &compaction, tally)?;
    readings_stay(
        subject,
        functions,
        &compacted,
        call,
        &[],
        &mut random,
        tally,
    )?;
    match functions {
        Functions::Of(Kind::Pairs) => {
            behind_a_split(subject, subject, functions, call, &mut random, tally)
        }
        Functions::Of(Kind::Marks) => {
            let splits = Marks(subject);
            behind_a_split(subject, &splits, functions, call, &mut random, tally)
        }
        Functions::InLookups => {
            let splits = InLookups(subject);
            behind_a_split(subject, &splits, functions, call, &mut random, tally)
        }
    }
}

/// The objects that a call names.
fn named(functions: Functions, call: &Call<u32>) -> Vec<u32> {
    match functions {
        Functions::Of(_) => vec![call.table],
        Functions::InLookups => vec![call.table, call.lookup_list],
    }
}

/// A compaction that is not refused.
fn compacted(
    subject: &impl CompactSubject,
    call: &Compaction,
    tally: &mut Tally,
) -> Result<Compacted, String> {
    compaction_agrees(subject, call)?;
    let compacted = Compacted::by(subject, call);
    kept(&compacted)?;
    compacted_again(subject, &compacted)?;
    match compacted.answer {
        0 => tally.add_compaction(&compacted),
        answer => return Err(format!("answer {answer}")),
    }
    Ok(compacted)
}

/// The table of a call, new ones, its lookups and some other objects say what they said, if they are kept.
fn readings_stay(
    subject: &impl Everything,
    functions: Functions,
    compacted: &Compacted,
    call: &Call<u32>,
    new_tables: &[u32],
    random: &mut Random,
    tally: &mut Tally,
) -> Outcome {
    let readings = Readings::of(compacted)?;
    let is_kept = |object: &u32| readings.numbers.now(*object).is_some();
    for &table in [&[call.table], new_tables]
        .concat()
        .iter()
        .filter(|it| is_kept(it))
    {
        match functions.kind() {
            Kind::Pairs => readings.pairs_stay(subject, table, random, tally)?,
            Kind::Marks => readings.attachments_stay(subject, table, random, tally)?,
        }
    }
    if functions == Functions::InLookups && is_kept(&call.lookup_list) {
        readings.lookups_stay(subject, call.lookup_list, random, tally)?;
    }
    let mut others: Vec<u32> = readings.numbers.kept().map(|(was, _)| was).collect();
    random.shuffle(&mut others);
    for &object in others.iter().take(OTHERS) {
        readings.pairs_stay(subject, object, random, tally)?;
        readings.attachments_stay(subject, object, random, tally)?;
    }
    Ok(())
}

fn behind_a_split(
    subject: &impl Everything,
    splits: &impl Splits,
    functions: Functions,
    call: &Call<u32>,
    random: &mut Random,
    tally: &mut Tally,
) -> Outcome {
    let split = Split::by(splits, call);
    let mut roots = [split.tables(), named(functions, call)].concat();
    random.shuffle(&mut roots);
    let compaction = lend::compaction_amply(&split.after.store, roots, random);
    let compacted = compacted(subject, &compaction, tally)?;
    let new_tables: Vec<u32> = split.new_tables().iter().copied().take(MOST_READ).collect();
    readings_stay(
        subject,
        functions,
        &compacted,
        call,
        &new_tables,
        random,
        tally,
    )?;
    again_behind(splits, &compacted, call)?;

    let list = *named(functions, call).last().unwrap_or(&call.table);
    freed_room_is_used(subject, splits, call, [call.table, list], random)
}

/// Of so many new tables all are read; of more, the first ones.
const MOST_READ: usize = 12;

/// Splitting the kept table again changes nothing behind a compaction either.
fn again_behind(splits: &impl Splits, compacted: &Compacted, call: &Call<u32>) -> Outcome {
    let readings = Readings::of(compacted)?;
    let now = |object| readings.numbers.now(object).unwrap_or(0);
    let mut behind = Call {
        store: compacted.after.store.clone(),
        table: now(call.table),
        lookup_list: now(call.lookup_list),
        ..call.clone()
    };
    behind.scratch.clear();
    let split = Split {
        before: behind.clone(),
        after: behind,
        answer: 0,
        places: Vec::new(),
    };
    again(splits, &split)
}

/// Damaged copies of a compaction: they are refused as by the model, for the reason that the host library
/// gives, and nothing changes.
pub fn compacted_damaged(
    subject: &impl Everything,
    functions: Functions,
    call: &Call<u32>,
    seed: u64,
    tally: &mut Tally,
) -> Outcome {
    let mut random = Random::new(seed.rotate_left(32));
    let roots = generate::roots(&call.store, &named(functions, call), &mut random);
    let compaction = lend::compaction_exactly(&call.store, roots, &mut random);
    let damages = damage::compactions();
    for _ in 0..DAMAGES {
        let damage: CompactDamage = random.pick(&damages);
        if let Some(damaged) = damage.apply(&compaction, &mut random) {
            let settled = settle(subject, &damaged, tally).and_then(|answer| match damage.answer {
                expected if expected == answer => Ok(()),
                expected => Err(format!("answer {answer}, not {expected}")),
            });
            settled.map_err(|reason| format!("{}: {reason}", damage.name))?;
        }
    }
    for _ in 0..SCRAMBLES {
        let scrambled = damage::scramble_compaction(&compaction, &mut random);
        let settled = settle(subject, &scrambled, tally);
        settled.map_err(|reason| format!("at random: {reason}"))?;
    }
    Ok(())
}

/// What a damaged call answers, if all is well.
fn settle(
    subject: &impl CompactSubject,
    call: &Compaction,
    tally: &mut Tally,
) -> Result<u32, String> {
    compaction_agrees(subject, call)?;
    compaction_as_answered(call)?;
    let compacted = Compacted::by(subject, call);
    kept(&compacted)?;
    match compacted.answer {
        0 => tally.add_compaction(&compacted),
        answer => tally.answers[answer as usize] += 1,
    }
    Ok(compacted.answer)
}
