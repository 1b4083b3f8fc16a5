//! Lookups before and after new tables were entered in them.

use super::{
    ensure,
    frame::{frame_but_children, led},
    pairs::{first_glyphs, second_glyphs},
    same, Outcome, Split,
};
use crate::{
    compare::Objects as _,
    edit,
    model::{
        lookups::{self, applied::Subtables, Lookup, LOOKUP_HEADER},
        objects::Objects,
        pairs,
    },
    Pair, Random, Subject, Tally,
};
use oracle::Store;
use std::collections::HashMap;

/// A split leaves what the subject's plain split leaves, and behind it a new lookup for each one of pairs
/// that names the table, in the order of the list; all links to these, of both kinds, lead to the new ones.
/// Nothing else changes.
pub fn entered(subject: &impl Subject, split: &Split, tally: &mut Tally) -> Outcome {
    if split.after.count == 0 {
        return frame_but_children(split, |child| child);
    }
    let plain = Split::by(subject, &split.before);
    let rewritten = rewritten(split)?;
    let first_new = plain.after.store.counts[1];
    let new_numbers = rewritten
        .iter()
        .map(|lookup| lookup.number)
        .zip(first_new..);
    let new_numbers: HashMap<u32, u32> = new_numbers.collect();
    let now = |child| *new_numbers.get(&child).unwrap_or(&child);

    frame_but_children(split, now)?;
    behind_the_plain_split(split, &plain, now)?;
    let objects = first_new as usize + rewritten.len();
    ensure(split.after.store.counts[1] as usize == objects, || {
        format!("{} objects, not {objects}", split.after.store.counts[1])
    })?;
    tally.rewritten += rewritten.len();
    rewritten
        .iter()
        .try_for_each(|lookup| is_written(split, lookup, now))
}

/// The lookups of the list that are of pairs and name the table.
fn rewritten(split: &Split) -> Result<Vec<Lookup>, String> {
    let before = &split.before;
    let objects = Objects::of(&before.store).ok_or("the store was not sound")?;
    let lookups = lookups::read(objects, before.lookup_list).ok_or("a bad list was taken")?;
    let named = lookups
        .into_iter()
        .filter(|lookup| lookup.lookup_type == 2 && lookup.slots.contains(&Some(before.table)));
    Ok(named.collect())
}

/// All but the new lookups is what the plain split leaves, with links as they lead now.
fn behind_the_plain_split(split: &Split, plain: &Split, now: impl Fn(u32) -> u32) -> Outcome {
    same("new tables", split.new_tables(), plain.new_tables())?;
    let (ours, theirs) = (&split.after.store, &plain.after.store);
    let [data, objects, links] = theirs.counts.map(|count| count as usize);
    same("data", &ours.data[..data], theirs.data_in_use())?;
    let rows = theirs.objects_in_use();
    same("objects", &ours.objects_in_use()[..objects], rows)?;
    let rows = led(theirs.links_in_use(), now);
    same("links", &ours.links_in_use()[..links], &rows)
}

/// The new lookup has the old one's bytes, but for its count and offsets of zero, and lists the new tables
/// directly after each listing of the old one.
fn is_written(split: &Split, old: &Lookup, now: impl Fn(u32) -> u32) -> Outcome {
    let (before, after) = (&split.before.store, &split.after.store);
    let new_number = now(old.number);
    let new = Objects::of(after).and_then(|objects| Lookup::read(objects, new_number));
    let new = new.ok_or_else(|| format!("{new_number} is no lookup"))?;
    let mut slots = Vec::new();
    for &slot in &old.slots {
        slots.push(slot.map(&now));
        if slot == Some(split.before.table) {
            slots.extend(split.new_tables().iter().copied().map(Some));
        }
    }
    same("slots", &new.slots, &slots)?;
    let (old_bytes, new_bytes) = (
        edit::bytes(before, old.number),
        edit::bytes(after, new_number),
    );
    same("type and flag", &new_bytes[..4], &old_bytes[..4])?;
    let offsets = LOOKUP_HEADER..LOOKUP_HEADER + 2 * slots.len();
    ensure(
        new_bytes[offsets.clone()].iter().all(|&byte| byte == 0),
        || format!("lookup {new_number} has offsets"),
    )?;
    let behind = &old_bytes[LOOKUP_HEADER + 2 * old.slots.len()..];
    same("the filter", &new_bytes[offsets.end..], behind)
}

/// Of each lookup of pairs, as the list leads to it before and after: what it says of two glyphs stays,
/// where all its subtables are read and no other reaches the table.
pub fn applied_stay(split: &Split, random: &mut Random, tally: &mut Tally) -> Outcome {
    for [old, new] in lookups_of_pairs(split) {
        let (old, new) = (
            subtables(&split.before.store, old)?,
            subtables(&split.after.store, new)?,
        );
        let stays = old.stay_with(split.before.table);
        tally.applied[usize::from(!stays)] += 1;
        if !stays {
            continue;
        }
        for glyphs in some_glyphs(&old, &new, random) {
            let (before, after) = (old.apply(glyphs), new.apply(glyphs));
            tally.readings += 1;
            tally.found += before.found as usize;
            ensure(before == after, || {
                format!("glyphs {glyphs:?}: {after:?}, not {before:?}")
            })?;
        }
    }
    Ok(())
}

/// A lookup applied over a subject's pair readings says what the model's says, before and after.
pub fn applied_agree(
    subject: &impl Subject,
    split: &Split,
    random: &mut Random,
    tally: &mut Tally,
) -> Outcome {
    for [old, new] in lookups_of_pairs(split).into_iter().take(MOST_LOOKUPS) {
        for (store, lookup) in [(&split.before.store, old), (&split.after.store, new)] {
            let subtables = subtables(store, lookup)?;
            let glyphs = some_glyphs(&subtables, &subtables, random);
            for glyphs in glyphs.into_iter().take(PAIRS) {
                let (ours, theirs) = (
                    apply(subject, store, subtables.numbers(), glyphs),
                    subtables.apply(glyphs),
                );
                tally.readings += 1;
                tally.found += theirs.found as usize;
                ensure(ours == theirs, || {
                    format!("lookup {lookup}, glyphs {glyphs:?}: {ours:?}, not {theirs:?}")
                })?;
            }
        }
    }
    Ok(())
}

/// How many lookups are applied by another subject, and to how many pairs each.
const MOST_LOOKUPS: usize = 3;
const PAIRS: usize = 6;

/// The first subtable with a pair decides.
pub(super) fn apply(
    subject: &impl Subject,
    store: &Store,
    subtables: &[u32],
    glyphs: [u16; 2],
) -> Pair {
    let mut pair = Pair::default();
    for &table in subtables {
        subject.read_pair(store, table, glyphs, &mut pair);
        if pair.found == 1 {
            break;
        }
    }
    pair
}

/// The lookups of pairs, as the list leads to them before and after, where there are new tables.
fn lookups_of_pairs(split: &Split) -> Vec<[u32; 2]> {
    if split.after.count == 0 {
        return Vec::new();
    }
    let list = split.before.lookup_list;
    let (old, new) = (
        split.before.store.links(list),
        split.after.store.links(list),
    );
    let mut lookups: Vec<[u32; 2]> = old.iter().zip(&new).map(|(a, b)| [a.1, b.1]).collect();
    lookups.retain(|&[old, _]| edit::bytes(&split.before.store, old).starts_with(&[0, 2]));
    lookups.dedup();
    lookups
}

fn subtables(store: &Store, lookup: u32) -> Result<Subtables<'_>, String> {
    Subtables::of(store, lookup).ok_or_else(|| format!("{lookup} is no lookup"))
}

/// Glyphs of which subtables may say something: many where there are few subtables.
fn some_glyphs(old: &Subtables, new: &Subtables, random: &mut Random) -> Vec<[u16; 2]> {
    let most = READINGS / new.numbers().len().max(1);
    let mut glyphs = Vec::new();
    for table in old.readable().take(SOME_SUBTABLES) {
        let (firsts, seconds) = (first_glyphs(table, random), second_glyphs(table, random));
        let pairs = firsts
            .iter()
            .flat_map(|&first| seconds.iter().map(move |&second| [first, second]));
        let found =
            pairs.filter(|&glyphs| random.one_in(8) || pairs::read(table, glyphs).found == 1);
        glyphs.extend(found);
    }
    random.shuffle(&mut glyphs);
    glyphs.truncate(most.clamp(8, 400));
    glyphs
}

/// About so many tables are read of a lookup, of pairs of so many subtables.
const READINGS: usize = 10_000;
const SOME_SUBTABLES: usize = 6;
