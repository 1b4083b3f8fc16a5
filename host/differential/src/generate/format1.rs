//! Format 1: pair sets.

use super::{
    draft::Draft,
    glyphs::{coverage, glyphs},
    growth::{grow, Sizes},
    value_format,
};
use crate::{
    model::{numbers::bytes, pairs::is_sorted, values::ValueFormat},
    Random,
};

/// Drafts a table with all that it leads to.
pub fn draft(draft: &mut Draft, random: &mut Random) -> usize {
    let slots = slot_count(random);
    let formats = [(); 2].map(|()| value_format(random));
    let table = draft.object(table(random, formats, slots));

    let more = random.pick(&[0, 0, 1, 5]);
    let glyphs = glyphs(random, slots + more);
    let coverage = draft.object(coverage(random, &glyphs));
    draft.link(table, 2, coverage);

    let mut targets = pair_sets(draft, random, formats);
    if random.one_in(6) {
        draft.link_anywhere(random, coverage, targets[0]);
    }
    if is_sorted(draft.bytes(coverage), record_size(formats)) {
        targets.push(coverage);
    }
    for slot in 0..slots {
        if !random.one_in(6) {
            draft.link(table, 10 + 2 * slot, random.pick(&targets));
        }
    }
    table
}

/// A table's bytes: those of its offsets are anything.
pub fn table(random: &mut Random, formats: [ValueFormat; 2], slots: usize) -> Vec<u8> {
    let [format1, format2] = formats;
    let mut table = bytes([1, random.number() as u16, format1.0, format2.0]);
    table.extend(bytes([slots as u16]));
    table.extend(random.bytes(2 * slots));
    table
}

fn slot_count(random: &mut Random) -> usize {
    match random.below(12) {
        0 => 0,
        1..=2 => 1,
        3..=8 => random.within(2..=15),
        9..=10 => random.within(16..=80),
        _ => random.within(80..=1_200),
    }
}

/// Pair sets, which may be devices of one another.
fn pair_sets(draft: &mut Draft, random: &mut Random, formats: [ValueFormat; 2]) -> Vec<usize> {
    let sizes = Sizes::any(random);
    let below_sizes = Sizes::any(random);
    let mut below = grow(draft, random, below_sizes);
    let mut sets = Vec::new();
    for _ in 0..random.within(1..=8) {
        let len = sizes.len(random);
        let set = match random.one_in(2) {
            true => pair_set(draft, random, formats, len, &below),
            false => light_set(draft, random, formats, len, &below),
        };
        if random.one_in(5) {
            let child = random.pick(&below);
            draft.link_anywhere(random, set, child);
        }
        if random.one_in(5) {
            below.push(set);
        }
        sets.push(set);
    }
    sets
}

/// A pair set of few records, and what makes up the length in an object that it leads to.
fn light_set(
    draft: &mut Draft,
    random: &mut Random,
    formats: [ValueFormat; 2],
    len: usize,
    below: &[usize],
) -> usize {
    let records = random.below(6);
    let set_len = 2 + records * record_size(formats);
    let set = pair_set(draft, random, formats, set_len, below);
    if let Some(rest @ 1..) = len.checked_sub(set_len) {
        let rest = draft.object(random.bytes(rest));
        draft.link_anywhere(random, set, rest);
    }
    set
}

/// A pair set of about some length, which is sorted: a count, and records. Devices of the first ones lead
/// below.
pub fn pair_set(
    draft: &mut Draft,
    random: &mut Random,
    formats: [ValueFormat; 2],
    len: usize,
    below: &[usize],
) -> usize {
    let [format1, format2] = formats;
    let size = record_size(formats);
    let records = len.saturating_sub(2) / size;
    let mut set_bytes = random.bytes(2 + records * size);
    set_bytes[..2].copy_from_slice(&(records as u16).to_be_bytes());
    let most = random.pick(&[1, 2, 300]).min(65_536 / records.max(1));
    let mut next = random.below(3.min(most));
    let mut devices = Vec::new();
    for record in 0..records {
        let at = 2 + size * record;
        set_bytes[at..at + 2].copy_from_slice(&(next as u16).to_be_bytes());
        next += random.within(1..=most);
        if record < DEVICE_RECORDS {
            devices.extend(format1.devices().map(|device| at + 2 + 2 * device));
            let values2 = at + 2 + format1.size();
            devices.extend(format2.devices().map(|device| values2 + 2 * device));
        }
    }
    let set = draft.object(set_bytes);
    for position in devices {
        if random.one_in(2) {
            draft.link(set, position, random.pick(below));
        }
    }
    set
}

/// So many of a set's records may have devices.
const DEVICE_RECORDS: usize = 5;

/// A second glyph and two values.
fn record_size([format1, format2]: [ValueFormat; 2]) -> usize {
    2 + format1.size() + format2.size()
}
