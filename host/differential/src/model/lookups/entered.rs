//! New tables entered in lookups.

use super::{Lookup, LOOKUP_HEADER};
use crate::model::{numbers::bytes, objects::Link, table::PairPos, written::Written};
use oracle::link;
use std::collections::HashMap;

/// What a split writes together with new lookups, in which the new tables follow each listing of the old
/// one. Nothing where a lookup cannot count its subtables.
pub fn enter(pairpos: &PairPos, mut written: Written, lookups: Vec<Lookup>) -> Option<Written> {
    let mut new_numbers = HashMap::new();
    for lookup in &lookups {
        let number = (pairpos.objects.count() + written.new_objects.len()) as u32;
        let slots = entered(&lookup.slots, pairpos.table, &written.new_tables);
        let old = pairpos.objects.bytes(lookup.number);
        written.new_objects.push(new_lookup(old, lookup, &slots)?);
        written.links.extend(links(number, &slots));
        new_numbers.insert(lookup.number, number);
    }
    redirect(&mut written.links, |child| {
        *new_numbers.get(&child).unwrap_or(&child)
    });
    Some(written)
}

/// Leads links of both kinds to where their children now are, each parent's rows in order again: those of
/// order-only links go by their children.
fn redirect(links: &mut [Link], now: impl Fn(u32) -> u32) {
    for [_, _, _, child, _] in &mut *links {
        *child = now(*child);
    }
    links.sort_unstable_by_key(link::rank);
}

/// The slots of a new lookup: later subtables move up in order.
fn entered(slots: &[Option<u32>], table: u32, new_tables: &[u32]) -> Vec<Option<u32>> {
    let mut entered = Vec::new();
    for &slot in slots {
        entered.push(slot);
        if slot == Some(table) {
            entered.extend(new_tables.iter().map(|&new| Some(new)));
        }
    }
    entered
}

/// Type, flag and what stands behind the offsets are copied, the count is set, offsets are zero.
fn new_lookup(old: &[u8], lookup: &Lookup, slots: &[Option<u32>]) -> Option<Vec<u8>> {
    let count = u16::try_from(slots.len()).ok()?;
    let behind = &old[LOOKUP_HEADER + 2 * lookup.slots.len()..];
    let offsets = vec![0; 2 * slots.len()];
    Some([&old[..4], &bytes([count]), &offsets, behind].concat())
}

/// The links of a lookup with these slots.
fn links(lookup: u32, slots: &[Option<u32>]) -> impl Iterator<Item = Link> + '_ {
    let slots = slots.iter().enumerate();
    slots.filter_map(move |(slot, child)| {
        let position = LOOKUP_HEADER + 2 * slot;
        Some(link::offset(lookup, position as u32, (*child)?))
    })
}
