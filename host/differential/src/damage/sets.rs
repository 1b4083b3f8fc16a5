//! Pair sets that are not as long as they say, or not sorted.

use super::{table::header, Named};
use crate::{
    compare::Objects,
    edit,
    model::{
        header::Format,
        numbers::{self, u16_at},
    },
    Call, Random,
};

pub const DAMAGES: &[Named] = &[
    ("two records of one second glyph", |call, random| {
        let [set, first] = two_records(call, random)?;
        let size = record_size(call)?;
        let glyph = second_glyph(call, set, first)?;
        edit::set_word(&mut call.store, set as u32, first + size, glyph);
        Some(())
    }),
    ("two records in the wrong order", |call, random| {
        let [set, first] = two_records(call, random)?;
        let size = record_size(call)?;
        let [low, high] = [first, first + size].map(|at| second_glyph(call, set, at));
        edit::set_word(&mut call.store, set as u32, first, high?);
        edit::set_word(&mut call.store, set as u32, first + size, low?);
        Some(())
    }),
    ("a set one byte long", |call, random| {
        change(call, random, |bytes| bytes.push(0))
    }),
    ("a set one byte short", |call, random| {
        change(call, random, |bytes| bytes.truncate(bytes.len() - 1))
    }),
    ("a set one record long", |call, random| {
        let size = record_size(call)?;
        change(call, random, |bytes| bytes.extend(vec![0xFF; size]))
    }),
    ("a set's count one too high", |call, random| {
        let set = any_set(call, random)?;
        let count = u16_at(edit::bytes(&call.store, set), 0)?.checked_add(1)?;
        edit::set_word(&mut call.store, set, 0, count);
        Some(())
    }),
    ("a set's count one too low", |call, random| {
        let set = any_set(call, random)?;
        let count = u16_at(edit::bytes(&call.store, set), 0)?.checked_sub(1)?;
        edit::set_word(&mut call.store, set, 0, count);
        Some(())
    }),
    ("a set of no bytes", |call, random| {
        change(call, random, |bytes| bytes.clear())
    }),
    ("a set of one byte", |call, random| {
        change(call, random, |bytes| bytes.truncate(1))
    }),
    ("an unsorted set in the last slot", |call, _| {
        let header = header(call)?;
        let last = header.items.checked_sub(1)?;
        (header.format == Format::One).then_some(())?;
        let size = header.record_size() / 2;
        let record = |glyph| [glyph].into_iter().chain(vec![0; size]);
        let words = [2].into_iter().chain(record(7)).chain(record(6));
        let set = edit::add(&mut call.store, &numbers::bytes(words));
        let slot = header.item_pos(last) as u32;
        edit::link(&mut call.store, call.table, slot, set);
        call.scratch.walk.extend([1; 2]);
        Some(())
    }),
];

/// The bytes of a record, of a table of format 1.
fn record_size(call: &Call<u32>) -> Option<usize> {
    let header = header(call)?;
    (header.format == Format::One).then(|| 2 + header.record_size())
}

/// Some linked set that is nothing else of the table.
fn any_set(call: &Call<u32>, random: &mut Random) -> Option<u32> {
    record_size(call)?;
    let of_table = call.store.links(call.table);
    let &(_, coverage) = of_table.first()?;
    let sets = of_table.iter().filter(|(position, _)| *position >= 10);
    let sets: Vec<u32> = sets
        .map(|&(_, child)| child)
        .filter(|&it| it != coverage)
        .collect();
    sets.get(random.below(sets.len().max(1))).copied()
}

/// A set, and where in it the first of two records stands.
fn two_records(call: &Call<u32>, random: &mut Random) -> Option<[usize; 2]> {
    let size = record_size(call)?;
    (0..20).find_map(|_| {
        let set = any_set(call, random)?;
        let count = usize::from(u16_at(edit::bytes(&call.store, set), 0)?);
        let record = random.below(count.checked_sub(1).filter(|&it| it > 0)?);
        Some([set as usize, 2 + size * record])
    })
}

fn second_glyph(call: &Call<u32>, set: usize, at: usize) -> Option<u16> {
    u16_at(edit::bytes(&call.store, set as u32), at)
}

/// Changes the bytes of some set.
fn change(call: &mut Call<u32>, random: &mut Random, change: impl Fn(&mut Vec<u8>)) -> Option<()> {
    let set = any_set(call, random)?;
    let mut bytes = edit::bytes(&call.store, set).to_vec();
    change(&mut bytes);
    edit::replace(&mut call.store, set, &bytes);
    Some(())
}
