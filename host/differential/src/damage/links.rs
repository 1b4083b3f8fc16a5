//! Links of the table at no slot, and ways from the table back to itself.

use super::{table::header, Named};
use crate::{
    edit,
    model::{header::Format, pairs::is_sorted},
    Call, Random,
};

pub const DAMAGES: &[Named] = &[
    ("a link at the format", |call, _| stray(call, 0)),
    ("a link half over the coverage's", |call, _| stray(call, 3)),
    ("a link at the value formats", |call, _| stray(call, 5)),
    ("a link at the count", |call, _| {
        let header = header(call)?;
        stray(call, header.format.count_pos())
    }),
    ("a link somewhere at no slot", |call, random| {
        let header = header(call)?;
        let places = header.item_pos(header.items) - 1;
        let mut anywhere = (0..20).map(|_| random.below(places));
        let position = anywhere.find(|&position| !header.is_slot(position))?;
        stray(call, position)
    }),
    ("a coverage that leads to the table", |call, _| {
        let coverage = edit::child_at(&call.store, call.table, 2)?;
        edit::link(&mut call.store, coverage, 0, call.table);
        Some(())
    }),
    ("a part that leads to the table", |call, random| {
        let offset = random.pick(header(call)?.format.offsets()) as u32;
        let part = edit::child_at(&call.store, call.table, offset)?;
        edit::link(&mut call.store, part, 2, call.table);
        Some(())
    }),
    ("an item that leads to the table", |call, random| {
        let position = slot(call, random)?;
        let child = edit::child_at(&call.store, call.table, position)?;
        let last = edit::bytes(&call.store, child).len().checked_sub(2)?;
        edit::link(&mut call.store, child, last as u32, call.table);
        Some(())
    }),
    ("a device that is the table", |call, random| {
        let position = slot(call, random)?;
        edit::link(&mut call.store, call.table, position, call.table);
        (header(call)?.format == Format::Two).then_some(())
    }),
    ("a long way back to the table", |call, random| {
        let mut object = call.table;
        for _ in 0..random.within(2..=40) {
            let next = edit::add(&mut call.store, &[0; 3]);
            edit::link(&mut call.store, next, 1, object);
            call.scratch.walk.extend([1; 2]);
            object = next;
        }
        let coverage = edit::child_at(&call.store, call.table, 2)?;
        edit::link(&mut call.store, coverage, 1, object);
        Some(())
    }),
];

/// The same of pair sets, of which the table is none that is sorted.
pub const SETS: &[Named] = &[("a set that is the table", |call, random| {
    let position = slot(call, random)?;
    let header = header(call)?;
    edit::link(&mut call.store, call.table, position, call.table);
    let sorted = is_sorted(
        edit::bytes(&call.store, call.table),
        2 + header.record_size(),
    );
    (header.format == Format::One && !sorted).then_some(())
})];

/// Leads a position of the table to its coverage.
fn stray(call: &mut Call<u32>, position: usize) -> Option<()> {
    let coverage = edit::child_at(&call.store, call.table, 2)?;
    edit::link(&mut call.store, call.table, position as u32, coverage);
    Some(())
}

/// Some position of an item that is a slot, if one is found.
fn slot(call: &Call<u32>, random: &mut Random) -> Option<u32> {
    let header = header(call)?;
    let items = header.item_pos(0)..header.item_pos(header.items);
    let mut anywhere = (0..20).map(|_| items.start + random.below(items.len().max(1)));
    let position = anywhere.find(|&position| header.is_slot(position))?;
    items.contains(&position).then_some(position as u32)
}
