//! Links at no slot, and ways back to the table.

use super::{Asked, Fault, LinkRow, Part};
use crate::{
    table::{record_size, word},
    Kind,
};
use std::collections::VecDeque;

pub(super) fn at_no_slot(asked: &Asked) -> Option<Fault> {
    let table = asked.bytes();
    let offsets: &[usize] = match (asked.kind, asked.format()) {
        (Kind::Pairs, 1) => &[2],
        (Kind::Pairs, _) => &[2, 8, 10],
        (Kind::Marks, _) => &[2, 4, 8, 10],
    };
    let of_items = item_slots(asked.kind, table);
    let is_slot = |at: usize| offsets.contains(&at) || of_items(at);
    stray(asked, asked.table, Part::Table, is_slot).or_else(|| match asked.kind {
        Kind::Pairs => None,
        Kind::Marks => of_array(asked, Part::MarkArray, |at| at >= 4 && at % 4 == 0)
            .or_else(|| of_array(asked, Part::BaseArray, |at| at >= 2 && at % 2 == 0)),
    })
}

fn of_array(asked: &Asked, part: Part, is_slot: impl Fn(usize) -> bool) -> Option<Fault> {
    let (array, _) = asked.part(part)?;
    stray(asked, array, part, is_slot)
}

/// The first link of an object that stands at no slot.
pub(super) fn stray(
    asked: &Asked,
    parent: u32,
    part: Part,
    is_slot: impl Fn(usize) -> bool,
) -> Option<Fault> {
    let rows = asked.store.link_rows();
    let start = rows.partition_point(|row| row[0] < parent);
    let mut links = (start..).zip(asked.store.offsets_of(parent));
    let (row, link) = links.find(|(_, link)| !is_slot(link.position as usize))?;
    let row = LinkRow { row, link };
    Some(Fault::NoSlot { row, part })
}

/// Where the items of a table have slots: pair sets their offsets, rows their devices.
fn item_slots(kind: Kind, table: &[u8]) -> Box<dyn Fn(usize) -> bool> {
    match (kind, word(table, 0)) {
        (Kind::Marks, _) => Box::new(|_| false),
        (Kind::Pairs, 1) => Box::new(|at| at >= 10 && at % 2 == 0),
        (Kind::Pairs, _) => {
            let (devices, record) = (devices(table), record_size(table));
            Box::new(move |at| {
                let within = at.checked_sub(16).and_then(|at| at.checked_rem(record));
                within.is_some_and(|within| devices.contains(&within))
            })
        }
    }
}

/// Where in a record the devices stand: the upper four of the eight fields of either value.
fn devices(table: &[u8]) -> Vec<usize> {
    let mut devices = Vec::new();
    let mut at = 0;
    for format in [4, 6].map(|place| word(table, place)) {
        for field in (0..8).filter(|field| format >> field & 1 == 1) {
            if field >= 4 {
                devices.push(at);
            }
            at += 2;
        }
    }
    devices
}

/// The shortest way along links from the table back to it.
pub(super) fn way_back(asked: &Asked) -> Option<Fault> {
    let [_, objects, _] = asked.store.counts();
    // Which object led to each one first.
    let mut from = vec![None; objects as usize];
    let mut next = VecDeque::from([asked.table]);
    while let Some(object) = next.pop_front() {
        for link in asked.store.offsets_of(object) {
            let seen = &mut from[link.child as usize];
            if seen.is_none() {
                *seen = Some(object);
                next.push_back(link.child);
            }
            if link.child == asked.table {
                return Some(way(asked.table, &from));
            }
        }
    }
    None
}

fn way(table: u32, from: &[Option<u32>]) -> Fault {
    let mut objects = vec![table];
    let mut object = table;
    while let Some(before) = from[object as usize] {
        objects.push(before);
        object = before;
        if object == table {
            break;
        }
    }
    objects.reverse();
    Fault::WayBack { objects }
}
