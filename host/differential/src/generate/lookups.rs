//! Lookup lists: lookups of several types that list subtables, each other and nothing, and some twice.

use super::{
    draft::Draft,
    format1::{self, pair_set},
    format2, value_format,
};
use crate::{
    model::{
        coverage,
        lookups::{FILTERS, LIST_HEADER, LOOKUP_HEADER, PAIR_TYPE},
        numbers::{bytes, u16_at},
    },
    Random,
};

/// A lookup lists the table at most so often: it then can count all new ones, and there is room for them.
const MOST_LISTINGS: usize = 5;

/// Drafts a list, one of whose lookups names a table, with all that the lookups list.
pub fn draft(draft: &mut Draft, random: &mut Random, table: usize) -> usize {
    let others = others(draft, random, table);
    let count = match random.below(12) {
        0 => random.within(30..=120),
        _ => random.within(1..=6),
    };
    let mut lookups = Vec::new();
    for place in 0..count {
        let listings = match place {
            0 => random.within(1..=MOST_LISTINGS),
            6.. if !random.one_in(10) => 0,
            _ => random.below(MOST_LISTINGS),
        };
        let slots = slots(random, [Some(table)].repeat(listings), &others);
        let lookup_type = match place {
            0 => PAIR_TYPE,
            _ => random.pick(&[2, 2, 2, 1, 4, 9, 0x0102, 0x0200]),
        };
        lookups.push(lookup(draft, random, lookup_type, &slots));
    }
    link_to(draft, random, &lookups);
    list(draft, random, &lookups)
}

/// Subtables beside the table. Some are refused, have another format, or lead to the table.
fn others(draft: &mut Draft, random: &mut Random, table: usize) -> Vec<usize> {
    let mut others = vec![beside(draft, random, table)];
    for _ in 0..random.below(3) {
        others.push(match random.below(5) {
            0 => format1::draft(draft, random),
            1 => format2::draft(draft, random),
            2 => draft.object(bytes([random.pick(&[0, 3, 0x0100])])),
            _ => beside(draft, random, table),
        });
    }
    if random.one_in(4) {
        let len = random.below(30);
        others.push(draft.object(random.bytes(len)));
    }
    if random.one_in(4) {
        let other = beside(draft, random, table);
        let way = draft.object(vec![0; 4]);
        draft.link(way, random.below(3), table);
        draft.link(other, 4, way);
        others.push(other);
    }
    others
}

/// A table of format 1 that says something of the first of a table's glyphs.
fn beside(draft: &mut Draft, random: &mut Random, table: usize) -> usize {
    let coverage = draft.child(table, 2).expect("a coverage");
    let glyphs = coverage::read(draft.bytes(coverage)).map_or(0, |glyphs| glyphs.len());
    let sets = random.within(0..=glyphs.min(12));
    let formats = [(); 2].map(|()| value_format(random));
    let beside = draft.object(format1::table(random, formats, sets));
    draft.link(beside, 2, coverage);
    let device = draft.object(vec![0; 6]);
    for slot in 0..sets {
        if !random.one_in(4) {
            let len = random.within(2..=200);
            let set = pair_set(draft, random, formats, len, &[device]);
            draft.link(beside, 10 + 2 * slot, set);
        }
    }
    beside
}

/// Listings of the table among those of others, and empty slots, in any order.
fn slots(
    random: &mut Random,
    mut slots: Vec<Option<usize>>,
    others: &[usize],
) -> Vec<Option<usize>> {
    let more = match random.below(12) {
        0 => random.within(40..=300),
        _ => random.below(5),
    };
    for _ in 0..more {
        slots.push((!random.one_in(4)).then(|| random.pick(others)));
    }
    random.shuffle(&mut slots);
    slots
}

/// A lookup with these slots, whose offsets are anything, and so is the set of a filter.
fn lookup(
    draft: &mut Draft,
    random: &mut Random,
    lookup_type: u16,
    slots: &[Option<usize>],
) -> usize {
    let flag = random.number() as u16;
    let filter = if flag & FILTERS == 0 { 0 } else { 2 };
    let mut lookup = bytes([lookup_type, flag, slots.len() as u16]);
    lookup.extend(random.bytes(2 * slots.len() + filter));
    let lookup = draft.object(lookup);
    link_slots(draft, lookup, LOOKUP_HEADER, slots);
    lookup
}

fn link_slots(draft: &mut Draft, parent: usize, first: usize, slots: &[Option<usize>]) {
    for (slot, child) in slots.iter().enumerate() {
        if let Some(child) = *child {
            draft.link(parent, first + 2 * slot, child);
        }
    }
}

/// Lookups that name each other or themselves, and links from where no list leads: a lookup, and objects
/// that are none.
fn link_to(draft: &mut Draft, random: &mut Random, lookups: &[usize]) {
    if random.one_in(3) {
        let named = random.pick(lookups);
        let count = u16_at(draft.bytes(named), 4).unwrap_or(0);
        let mut slots = (0..count.into()).map(|slot| LOOKUP_HEADER + 2 * slot);
        if let Some(empty) = slots.find(|&slot| draft.child(named, slot).is_none()) {
            draft.link(named, empty, random.pick(lookups));
        }
    }
    if random.one_in(3) {
        let slots: Vec<_> = lookups.iter().copied().map(Some).collect();
        lookup(draft, random, PAIR_TYPE, &slots[..slots.len().min(3)]);
    }
    for _ in 0..random.below(3) {
        let from = draft.object(random.bytes(9));
        draft.link(from, random.below(3), random.pick(lookups));
        draft.link(from, random.within(4..=7), random.pick(lookups));
    }
}

/// A list of the first lookup and of most others, some of them twice, with empty slots between.
fn list(draft: &mut Draft, random: &mut Random, lookups: &[usize]) -> usize {
    let mut slots = vec![Some(lookups[0])];
    for &lookup in &lookups[1..] {
        let times = random.pick(&[0, 1, 1, 1, 2]);
        slots.extend([Some(lookup)].repeat(times));
    }
    for _ in 0..random.below(4) {
        slots.push(random.pick(&[None, None, slots[0]]));
    }
    random.shuffle(&mut slots);
    let count = slots.len() as u16;
    if random.one_in(16) {
        return list_of_itself(draft, random, &slots);
    }
    let list = draft.object([bytes([count]), random.bytes(2 * slots.len())].concat());
    link_slots(draft, list, LIST_HEADER, &slots);
    list
}

/// A list that leads to itself too, and so is a lookup: of a type as high as its count, and with no link
/// where flag and count stand.
fn list_of_itself(draft: &mut Draft, random: &mut Random, slots: &[Option<usize>]) -> usize {
    let count = slots.len() as u16 + 3;
    let flag = random.number() as u16 & !FILTERS;
    let offsets = random.bytes(2 * slots.len() + 2);
    let list = draft.object([bytes([count, flag, count - 2]), offsets].concat());
    draft.link(list, LOOKUP_HEADER, list);
    link_slots(draft, list, LOOKUP_HEADER + 2, slots);
    list
}
