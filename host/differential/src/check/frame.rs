//! What a split leaves as it was.

use super::{ensure, same, Outcome, Split};
use crate::{edit, model::soundness::sound, Splits};
use oracle::{link, Store};

/// A split leaves scratch zero, and changes nothing but what it must.
pub fn frame(split: &Split) -> Outcome {
    frame_but_children(split, |child| child)
}

/// The same, but that links lead elsewhere: `now` says where a link leads that led to an object before.
pub(super) fn frame_but_children(split: &Split, now: impl Fn(u32) -> u32) -> Outcome {
    let (before, after) = (&split.before, &split.after);
    let mut untouched = before.clone();
    untouched.scratch.clear();
    untouched.count = 0;
    if after.count == 0 {
        return untouched.difference(after).map_or(Ok(()), Err);
    }
    ensure(split.answer == 0, || "a refusal with new tables".into())?;
    ensure(sound(&after.store), || "the store is not sound".into())?;
    ensure(after.scratch == untouched.scratch, || {
        "scratch is not zero".into()
    })?;
    let count = after.count as usize;
    same("list", &after.list[count..], &before.list[count..])?;
    rest_stays(&before.store, &after.store)?;
    others_stay(&before.store, &after.store, before.table)?;
    links_stay(&before.store, &after.store, before.table, now)
}

/// What lies past the new counts stays.
fn rest_stays(old: &Store, new: &Store) -> Outcome {
    let [data, objects, links] = new.counts.map(|count| count as usize);
    same("data", &new.data[data..], &old.data[data..])?;
    let (rows, old_rows) = (&new.objects[2 * objects..], &old.objects[2 * objects..]);
    same("objects", rows, old_rows)?;
    let end = link::NUMBERS * links;
    same("links", &new.links[end..], &old.links[end..])
}

/// Every other old object keeps its place and its bytes.
fn others_stay(old: &Store, new: &Store, table: u32) -> Outcome {
    for object in (0..old.counts[1]).filter(|&object| object != table) {
        let row = object as usize;
        same(
            "row",
            &new.objects_in_use()[row],
            &old.objects_in_use()[row],
        )?;
        same("bytes", edit::bytes(new, object), edit::bytes(old, object))?;
    }
    Ok(())
}

/// Every other old object keeps its links of both kinds, and the table its order-only ones, row by row as they
/// lead now; new objects have offsets alone.
fn links_stay(old: &Store, new: &Store, table: u32, now: impl Fn(u32) -> u32) -> Outcome {
    let is_new = |row: &link::Row| row[0] >= old.counts[1];
    let stays = |row: &&link::Row| !is_new(row) && (row[0] != table || !link::is_offset(row));
    let kept = |store: &Store| -> Vec<link::Row> {
        let rows = store.links_in_use().iter();
        rows.filter(stays).copied().collect()
    };
    same("links", &kept(new), &led(&kept(old), now))?;
    let mut rows = new.links_in_use().iter();
    let order = rows.find(|row| is_new(row) && !link::is_offset(row));
    order.map_or(Ok(()), |row| Err(format!("{row:?} is of a new object")))
}

/// Links as they lead now, those of a parent in order: order-only ones go by their children.
pub(super) fn led(rows: &[link::Row], now: impl Fn(u32) -> u32) -> Vec<link::Row> {
    let mut rows = rows.to_vec();
    for [_, _, _, child, _] in &mut rows {
        *child = now(*child);
    }
    for of_parent in rows.chunk_by_mut(|a, b| a[0] == b[0]) {
        of_parent.sort_unstable_by_key(link::rank);
    }
    rows
}

/// Splitting the kept table again, with scratch enough, changes nothing.
pub fn again(subject: &impl Splits, split: &Split) -> Outcome {
    again_at(subject, split, split.before.table)
}

/// Splitting a table that was left, with scratch enough, changes nothing.
pub fn again_at(subject: &impl Splits, split: &Split, table: u32) -> Outcome {
    let mut call = split.after.clone();
    call.table = table;
    call.scratch
        .walk
        .resize(2 * call.store.counts[1] as usize, 0);
    let again = Split::by(subject, &call);
    ensure(again.answer == 0, || format!("answer {}", again.answer))?;
    call.count = 0;
    call.difference(&again.after).map_or(Ok(()), Err)
}
