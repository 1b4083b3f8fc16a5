//! Calls in which anything may be wrong.

use crate::{edit, model::numbers, Call, Random};
use oracle::link;

/// Changes a few things of a call at random.
pub fn scramble(call: &Call<u32>, random: &mut Random) -> Call<u32> {
    let mut call = call.clone();
    for _ in 0..random.within(1..=3) {
        match random.below(11) {
            0 => nudge_any(&mut call.store.objects, random),
            1 => nudge_any(&mut call.store.links, random),
            2 => nudge_any(&mut call.store.counts, random),
            3 => call.table = nudged(call.table, random),
            4 => shorten_any(&mut call, random),
            5 => relink(&mut call, random),
            6 => cover(&mut call, random),
            7 => call.edition = nudged(call.edition, random),
            _ => change_byte(&mut call, random),
        }
    }
    call
}

fn nudge_any(numbers: &mut [u32], random: &mut Random) {
    if !numbers.is_empty() {
        let place = random.below(numbers.len());
        numbers[place] = nudged(numbers[place], random);
    }
}

/// A number nearby, or a great one.
pub(super) fn nudged(number: u32, random: &mut Random) -> u32 {
    match random.below(6) {
        0..=1 => number.wrapping_add(1),
        2..=3 => number.wrapping_sub(1),
        4 => number.wrapping_add(2),
        _ => u32::MAX - random.below(3) as u32,
    }
}

fn shorten_any(call: &mut Call<u32>, random: &mut Random) {
    let less = random.within(1..=4);
    let shorter = |len: usize| len.saturating_sub(less);
    let (store, scratch) = (&mut call.store, &mut call.scratch);
    match random.below(9) {
        0 => store.data.truncate(shorter(store.data.len())),
        1 => store.objects.truncate(shorter(store.objects.len())),
        2 => store.links.truncate(shorter(store.links.len())),
        3 => scratch.walk.truncate(shorter(scratch.walk.len())),
        4 => scratch.glyph_set.truncate(shorter(scratch.glyph_set.len())),
        5 => scratch.glyphs.truncate(shorter(scratch.glyphs.len())),
        6 => scratch.classes.truncate(shorter(scratch.classes.len())),
        7 => scratch.cuts.truncate(shorter(scratch.cuts.len())),
        _ => call.list.truncate(shorter(call.list.len())),
    }
}

/// Leads some link to another object.
fn relink(call: &mut Call<u32>, random: &mut Random) {
    let [_, objects, links] = call.store.counts.map(|count| count as usize);
    if links > 0 && link::NUMBERS * links <= call.store.links.len() {
        let child = random.below(objects.max(1)) as u32;
        call.store.links[link::NUMBERS * random.below(links) + 3] = child;
    }
}

/// Adds an object, and leads the table's coverage to it: a list of some glyphs.
fn cover(call: &mut Call<u32>, random: &mut Random) {
    let count = random.below(20) as u16;
    let glyphs = [1, count].into_iter().chain(0..count);
    let [data, objects, links] = call.store.counts.map(|count| count as usize);
    let store = &mut call.store;
    let fits = data <= store.data.len()
        && 2 * objects <= store.objects.len()
        && link::NUMBERS * links <= store.links.len();
    if fits {
        let coverage = edit::add(store, &numbers::bytes(glyphs));
        edit::link(store, call.table, 2, coverage);
    }
}

/// Changes a byte among the first of the table, or of an object that it leads to.
fn change_byte(call: &mut Call<u32>, random: &mut Random) {
    let rows = call.store.links_in_use().iter();
    let children = rows
        .filter(|row| link::is_offset(row) && row[0] == call.table)
        .map(|row| row[3]);
    let mut objects: Vec<u32> = children.take(4).collect();
    objects.push(call.table);
    let object = random.pick(&objects);
    let head = edit::head(&call.store, object);
    let bytes = call.store.data.get_mut(head..).unwrap_or_default();
    if let Some(byte) = bytes.get_mut(random.below(20)) {
        *byte = random.pick(&[0, 1, 2, 0xFF, byte.wrapping_add(1)]);
    }
}
