//! Stores that are not sound.

use super::Named;
use crate::{edit, Call, Random};
use oracle::link;

pub const DAMAGES: &[Named] = &[
    ("one data byte more in use than lent", |call, _| {
        call.store.counts[0] = call.store.data.len() as u32 + 1;
        Some(())
    }),
    ("one object more in use than lent", |call, _| {
        call.store.counts[1] = call.store.objects.len() as u32 / 2 + 1;
        Some(())
    }),
    ("one link more in use than lent", |call, _| {
        call.store.counts[2] = (call.store.links.len() / link::NUMBERS) as u32 + 1;
        Some(())
    }),
    ("the greatest of all counts", |call, random| {
        call.store.counts[random.below(3)] = u32::MAX;
        Some(())
    }),
    ("half an object row", |call, _| {
        let in_use = 2 * call.store.counts[1] as usize;
        call.store.objects.truncate(in_use - 1);
        Some(())
    }),
    ("a part of a link row", |call, random| {
        let in_use = link::NUMBERS * call.store.counts[2] as usize;
        let less = random.within(1..=link::NUMBERS - 1);
        call.store.links.truncate(in_use.checked_sub(less)?);
        Some(())
    }),
    ("as many numbers as rows of four would have", |call, _| {
        let in_use = call.store.counts[2] as usize;
        call.store.links.truncate((link::NUMBERS - 1) * in_use);
        (in_use > 0).then_some(())
    }),
    ("a head above its tail", |call, random| {
        let row = object_row(call, random);
        row[0] = row[1] + 1;
        Some(())
    }),
    ("a tail past the data in use", |call, _| {
        let last = 2 * call.store.counts[1] as usize - 1;
        call.store.objects[last] = call.store.counts[0] + 1;
        Some(())
    }),
    ("the greatest of all tails", |call, random| {
        object_row(call, random)[1] = u32::MAX;
        Some(())
    }),
    ("a head before the tail before it", |call, random| {
        let in_use = 2 * call.store.counts[1] as usize;
        let (_, between) = call.store.objects[..in_use].split_first_mut()?;
        let (pairs, _) = between.as_chunks_mut();
        let place = random.below(pairs.len().max(1));
        let [tail, head] = pairs.get_mut(place)?;
        *head = tail.checked_sub(1)?;
        Some(())
    }),
    ("a parent that is not in use", |call, _| {
        let objects = call.store.counts[1];
        links(call).last_mut()?[0] = objects;
        Some(())
    }),
    ("a child that is not in use", |call, random| {
        let objects = call.store.counts[1];
        any_link(call, random)?[3] = objects;
        Some(())
    }),
    ("a kind that there is not", |call, random| {
        let kind = random.pick(&[2, 3, u32::MAX]);
        any_link(call, random)?[4] = kind;
        Some(())
    }),
    ("an offset of a width other than 2", |call, random| {
        let width = random.pick(&[0, 1, 3, 4, u32::MAX]);
        any_offset(call, random)?[2] = width;
        Some(())
    }),
    (
        "a position whose second byte is past the parent",
        |call, _| {
            let parent = last_offset(call)?[0] as usize;
            let [head, tail] = call.store.objects_in_use()[parent];
            last_offset(call)?[1] = tail - head - 1;
            Some(())
        },
    ),
    ("a position that wraps with the width", |call, random| {
        last_offset(call)?[1] = u32::MAX - random.below(2) as u32;
        Some(())
    }),
    ("two links in the wrong order", |call, random| {
        let [first, second] = two_links(call, random)?;
        std::mem::swap(first, second);
        Some(())
    }),
    ("the same link twice", |call, random| {
        let row = *any_link(call, random)?;
        edit::add_row(&mut call.store, row);
        Some(())
    }),
    (
        "two offsets at one position, in order of their children",
        |call, random| {
            let objects = call.store.counts[1] as usize;
            let mut row = *any_offset(call, random)?;
            let other = (row[3] as usize + 1 + random.below((objects - 1).max(1))) % objects;
            row[3] = other as u32;
            edit::add_row(&mut call.store, row);
            (objects > 1).then_some(())
        },
    ),
];

/// Some object's row.
fn object_row<'a>(call: &'a mut Call<u32>, random: &mut Random) -> &'a mut [u32] {
    let row = 2 * random.below(call.store.counts[1] as usize);
    &mut call.store.objects[row..row + 2]
}

/// The link rows in use.
pub(super) fn links(call: &mut Call<u32>) -> &mut [link::Row] {
    let in_use = link::NUMBERS * call.store.counts[2] as usize;
    call.store.links[..in_use].as_chunks_mut().0
}

fn any_link<'a>(call: &'a mut Call<u32>, random: &mut Random) -> Option<&'a mut link::Row> {
    let links = links(call);
    let place = random.below(links.len().max(1));
    links.get_mut(place)
}

pub(super) fn any_offset<'a>(
    call: &'a mut Call<u32>,
    random: &mut Random,
) -> Option<&'a mut link::Row> {
    let offsets = links(call).iter_mut().filter(|row| link::is_offset(row));
    let mut offsets: Vec<_> = offsets.collect();
    let place = random.below(offsets.len().max(1));
    (place < offsets.len()).then(|| offsets.swap_remove(place))
}

fn last_offset(call: &mut Call<u32>) -> Option<&mut link::Row> {
    let rows = links(call).iter_mut();
    rows.rev().find(|row| link::is_offset(row))
}

/// Two link rows, one behind the other.
fn two_links<'a>(call: &'a mut Call<u32>, random: &mut Random) -> Option<&'a mut [link::Row; 2]> {
    let links = links(call);
    let place = random.below(links.len().max(2) - 1);
    links.get_mut(place..place + 2)?.first_chunk_mut()
}
