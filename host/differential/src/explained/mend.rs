//! A fault mended, where it stands and as it is wanted.

use crate::{
    edit,
    model::{
        lookups::{LOOKUP_HEADER, PAIR_TYPE},
        numbers,
    },
    Call,
};
use oracle::link;
use splitter::{
    explain::{Fault, LinkRow, Part, Place, Wanted},
    Room,
};

/// Mends what a fault names, if one of its numbers can be what is wanted.
pub fn mend(call: &mut Call<u32>, fault: &Fault) -> Option<()> {
    match fault {
        Fault::Number {
            place: Place::Subtables { lookup },
            wanted: Wanted::AtMost(most),
            found,
            ..
        } => shorten(call, *lookup, u16::try_from(found - most).ok()?),
        Fault::Number {
            place,
            wanted,
            found,
            ..
        } => set(call, place, nearest(*wanted, *found)?),
        Fault::NoLink {
            parent,
            position,
            part,
        } => {
            let object = edit::add(&mut call.store, &numbers::bytes(empty(*part)));
            edit::link(&mut call.store, *parent, *position, object);
            Some(())
        }
        Fault::Order { rows: [_, second] } => {
            let (rows, place) = (link_rows(call), second.row);
            match is_one_link(&rows[place - 1], &rows[place]) {
                true => remove_repeated(call),
                false => rows.sort_unstable_by_key(link::rank),
            }
            Some(())
        }
        Fault::NoSlot { row, .. } => {
            remove_row(call, row.row);
            Some(())
        }
        Fault::WayBack { objects } => {
            let &[.., last, table] = &objects[..] else {
                return None;
            };
            edit::remove_links(&mut call.store, |row| {
                link::is_offset(row) && [row[0], row[3]] == [last, table]
            });
            Some(())
        }
        Fault::NotListed { list, table } => enter(call, *list, *table),
        _ => None,
    }
}

/// The wanted number that is nearest to what was found.
fn nearest(wanted: Wanted, found: u64) -> Option<usize> {
    let number = match wanted {
        Wanted::Exactly(number) | Wanted::AtLeast(number) | Wanted::AtMost(number) => number,
        Wanted::Above(number) => number + 1,
        Wanted::Below(number) => number.checked_sub(1)?,
        Wanted::Either(one, other) => match found.abs_diff(one) <= found.abs_diff(other) {
            true => one,
            false => other,
        },
        _ => return None,
    };
    Some(number as usize)
}

fn set(call: &mut Call<u32>, place: &Place, number: usize) -> Option<()> {
    let store = &mut call.store;
    match *place {
        Place::Edition => call.edition = number as u32,
        Place::Table => call.table = number as u32,
        Place::LookupList => call.lookup_list = number as u32,
        Place::Count(name) => store.counts[buffer(name)?] = number as u32,
        Place::Head(row) => store.objects[2 * row] = number as u32,
        Place::Tail(row) => {
            // A tail need not reach over the next head.
            let next = store.objects_in_use().get(row + 1).map(|next| next[0]);
            let [head, tail] = [store.objects[2 * row], number as u32];
            let tail = next.filter(|next| *next >= head).unwrap_or(tail).min(tail);
            store.objects[2 * row + 1] = tail.max(head);
        }
        Place::Link { row, column } => set_link(call, row, column, number as u32),
        // No store holds more.
        Place::Length { .. } if number > Room::MOST.data => return None,
        Place::Length { object, .. } => {
            let mut bytes = edit::bytes(store, object).to_vec();
            bytes.resize(number, 0);
            edit::replace(store, object, &bytes);
        }
        Place::Bytes { object, at, .. } => {
            edit::set_word(store, object, at, u16::try_from(number).ok()?)
        }
        Place::Glyphs { object, .. } => {
            let count = number as u16;
            let glyphs = [1, count].into_iter().chain(0..count);
            edit::replace(store, object, &numbers::bytes(glyphs));
        }
        Place::Scratch("walk") => call.scratch.walk.resize(number, 1),
        Place::Scratch("glyph_set") => call.scratch.glyph_set.resize(number, 1),
        Place::Scratch("glyphs") => call.scratch.glyphs.resize(number, 1),
        Place::Scratch("classes") => call.scratch.classes.resize(number, 1),
        Place::Scratch("cuts") => call.scratch.cuts.resize(number, 1),
        Place::Room(name) => {
            let used = store.counts[buffer(name)?] as usize;
            match name {
                "data" => store.data.resize(used + number, 1),
                "objects" => store.objects.resize(2 * (used + number), 1),
                _ => store.links.resize(link::NUMBERS * (used + number), 1),
            }
        }
        Place::List => call.list.resize(number, 1),
        _ => return None,
    }
    Some(())
}

fn buffer(name: &str) -> Option<usize> {
    ["data", "objects", "links"]
        .iter()
        .position(|it| *it == name)
}

/// A link of no object, or outside its parent, goes; another number is set.
fn set_link(call: &mut Call<u32>, row: LinkRow, column: &str, number: u32) {
    let [_, position, width, child, kind] = &mut link_rows(call)[row.row];
    match column {
        "width" => *width = number,
        "child" => *child = number,
        // The width says which kind is meant.
        "kind" => *kind = u32::from(*width == 0),
        "position" if *kind == link::ORDER_ONLY => *position = number,
        _ => remove_row(call, row.row),
    }
}

/// Whether two rows are offsets at one position, or the same order-only link.
fn is_one_link(a: &link::Row, b: &link::Row) -> bool {
    let place = |row: &link::Row| match link::is_offset(row) {
        true => [row[0], row[4], row[1]],
        false => [row[0], row[4], row[3]],
    };
    place(a) == place(b)
}

/// Removes each row that is one link with the row before.
fn remove_repeated(call: &mut Call<u32>) {
    let mut rows = link_rows(call).to_vec();
    rows.dedup_by(|after, before| is_one_link(before, after));
    let end = link::NUMBERS * call.store.counts[2] as usize;
    call.store.counts[2] = rows.len() as u32;
    call.store.links.splice(..end, rows.into_flattened());
}

fn link_rows(call: &mut Call<u32>) -> &mut [link::Row] {
    let in_use = link::NUMBERS * call.store.counts[2] as usize;
    call.store.links[..in_use].as_chunks_mut().0
}

fn remove_row(call: &mut Call<u32>, row: usize) {
    let start = link::NUMBERS * row;
    call.store.links.drain(start..start + link::NUMBERS);
    call.store.counts[2] -= 1;
}

/// The words of a part that says nothing.
fn empty(part: Part) -> Vec<u16> {
    match part {
        Part::ClassDef1 | Part::ClassDef2 => vec![2, 0],
        Part::MarkArray | Part::BaseArray => vec![0],
        _ => vec![1, 0],
    }
}

/// Enters a lookup for pairs that names a table at the end of a list.
fn enter(call: &mut Call<u32>, list: u32, table: u32) -> Option<()> {
    let store = &mut call.store;
    let mut bytes = edit::bytes(store, list).to_vec();
    let slot = bytes.len() as u32;
    let count = numbers::u16_at(&bytes, 0)?.checked_add(1)?;
    bytes.extend([0; 2]);
    edit::replace(store, list, &bytes);
    edit::set_word(store, list, 0, count);
    let lookup = edit::add(store, &numbers::bytes([PAIR_TYPE, 0, 1, 0]));
    edit::link(store, list, slot, lookup);
    edit::link(store, lookup, LOOKUP_HEADER as u32, table);
    Some(())
}

/// Takes so many slots from the end of a lookup.
fn shorten(call: &mut Call<u32>, lookup: u32, slots: u16) -> Option<()> {
    let store = &mut call.store;
    let mut bytes = edit::bytes(store, lookup).to_vec();
    let count = numbers::u16_at(&bytes, 4)?;
    let kept = count.checked_sub(slots)?;
    let [start, end] = [kept, count].map(|slot| LOOKUP_HEADER + 2 * usize::from(slot));
    bytes.drain(start..end);
    edit::remove_links(store, |row| {
        link::is_offset(row) && row[0] == lookup && row[1] as usize >= start
    });
    edit::replace(store, lookup, &bytes);
    edit::set_word(store, lookup, 4, kept);
    Some(())
}
