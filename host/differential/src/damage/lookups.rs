//! What is refused of lookup lists alone: numbers, lengths, links, lists that name no table, and lookups
//! with too many subtables.

use super::{scramble::nudged, Named};
use crate::{
    edit,
    model::{
        answers,
        lookups::{Lookup, FILTERS, LIST_HEADER, LOOKUP_HEADER},
        numbers::u16_at,
        opened::Opened,
    },
    Call, Edition, Random,
};
use oracle::link;

pub const NUMBERS: &[Named] = &[
    ("a list behind the last object in use", |call, _| {
        call.lookup_list = call.store.counts[1];
        Some(())
    }),
    ("the greatest of all list numbers", |call, _| {
        call.lookup_list = u32::MAX;
        Some(())
    }),
];

pub const LISTS: &[Named] = &[
    ("a list of no bytes", |call, _| {
        change(call, call.lookup_list, |bytes| bytes.clear())
    }),
    ("a list of one byte", |call, _| {
        change(call, call.lookup_list, |bytes| bytes.truncate(1))
    }),
    ("a list one byte short", |call, _| {
        change(call, call.lookup_list, |bytes| {
            bytes.truncate(bytes.len() - 1)
        })
    }),
    ("a list one byte long", |call, _| {
        change(call, call.lookup_list, |bytes| bytes.push(0))
    }),
    ("a list one offset long", |call, _| {
        change(call, call.lookup_list, |bytes| bytes.extend([0; 2]))
    }),
    ("a list's count one too high", |call, _| {
        let count = word(call, call.lookup_list, 0)?;
        set(call, call.lookup_list, 0, count + 1)
    }),
    ("a list's count one too low", |call, _| {
        let count = word(call, call.lookup_list, 0)?;
        set(call, call.lookup_list, 0, count - 1)
    }),
    ("a link at the count of a list", |call, _| {
        stray(call, call.lookup_list, 0)
    }),
    ("a link half over a list's offset", |call, random| {
        let count = word(call, call.lookup_list, 0)?;
        let slot = random.below(count.into());
        stray(call, call.lookup_list, LIST_HEADER + 2 * slot - 1)
    }),
    ("a lookup of no bytes", |call, random| {
        let lookup = any_lookup(call, random)?;
        change(call, lookup, |bytes| bytes.clear())
    }),
    ("a lookup's header one byte short", |call, random| {
        let lookup = any_lookup(call, random)?;
        change(call, lookup, |bytes| bytes.truncate(LOOKUP_HEADER - 1))
    }),
    ("a lookup one byte short", |call, random| {
        let lookup = any_lookup(call, random)?;
        change(call, lookup, |bytes| bytes.truncate(bytes.len() - 1))
    }),
    ("a lookup one byte long", |call, random| {
        let lookup = any_lookup(call, random)?;
        change(call, lookup, |bytes| bytes.push(0))
    }),
    ("a lookup one offset long", |call, random| {
        let lookup = any_lookup(call, random)?;
        change(call, lookup, |bytes| bytes.extend([0; 2]))
    }),
    ("a lookup's count one too high", |call, random| {
        let lookup = any_lookup(call, random)?;
        let count = word(call, lookup, 4)?.checked_add(1)?;
        set(call, lookup, 4, count)
    }),
    ("a lookup's count one too low", |call, random| {
        let lookup = any_lookup(call, random)?;
        let count = word(call, lookup, 4)?.checked_sub(1)?;
        set(call, lookup, 4, count)
    }),
    (
        "a filter without its set, or a set without its filter",
        |call, random| {
            let lookup = any_lookup(call, random)?;
            let flag = word(call, lookup, 2)?;
            set(call, lookup, 2, flag ^ FILTERS)
        },
    ),
    ("a link at the type of a lookup", |call, random| {
        let lookup = any_lookup(call, random)?;
        stray(call, lookup, 0)
    }),
    ("a link at the count of a lookup", |call, random| {
        let lookup = any_lookup(call, random)?;
        stray(call, lookup, 4)
    }),
    (
        "a link half over a lookup's first offset",
        |call, random| {
            let lookup = any_lookup(call, random)?;
            stray(call, lookup, LOOKUP_HEADER - 1)
        },
    ),
    ("a link half over a lookup's offset", |call, random| {
        let lookup = any_lookup(call, random)?;
        let count = usize::from(word(call, lookup, 4)?);
        let slot = random.below(count.max(1));
        (slot + 1 < count).then_some(())?;
        stray(call, lookup, LOOKUP_HEADER + 2 * slot + 1)
    }),
    ("a link at the set of a filter", |call, random| {
        let mut lookups = listed(call).into_iter();
        let filters = |lookup: &u32| word(call, *lookup, 2).is_some_and(|it| it & FILTERS != 0);
        let lookup = lookups.find(|lookup| filters(lookup) && !is_itself(call, *lookup))?;
        let last = edit::bytes(&call.store, lookup).len() - 2;
        stray(call, lookup, last - random.below(2))
    }),
    ("no lookup of pairs names the table", |call, random| {
        let others = [0, 1, 3, 4, 9, 0x0200, 0x0102];
        for lookup in rewritten(call)? {
            set(call, lookup.number, 0, random.pick(&others))?;
        }
        Some(())
    }),
    (
        "lookups of pairs that name another table",
        |call, random| {
            let other = random.pick(&[
                call.lookup_list,
                edit::child_at(&call.store, call.table, 2)?,
            ]);
            for lookup in rewritten(call)? {
                for slot in listings(&lookup, call.table) {
                    edit::link(&mut call.store, lookup.number, slot, other);
                }
            }
            Some(())
        },
    ),
    (
        "a list that does not lead to what names the table",
        |call, _| {
            let named: Vec<u32> = rewritten(call)?
                .iter()
                .map(|lookup| lookup.number)
                .collect();
            let list = call.lookup_list;
            edit::remove_links(&mut call.store, |row| {
                link::is_offset(row) && row[0] == list && named.contains(&row[3])
            });
            Some(())
        },
    ),
    (
        "lookups of pairs that are placed after the table, and do not name it",
        |call, _| {
            for lookup in rewritten(call)? {
                for slot in listings(&lookup, call.table) {
                    edit::unlink(&mut call.store, lookup.number, slot);
                }
                edit::order(&mut call.store, lookup.number, call.table);
            }
            Some(())
        },
    ),
    (
        "a list that is placed after what names the table, and does not lead to it",
        |call, _| {
            let list = call.lookup_list;
            for Lookup { number, .. } in rewritten(call)? {
                let goes = |row: &link::Row| row[0] == list && row[3] == number;
                edit::remove_links(&mut call.store, goes);
                edit::order(&mut call.store, list, number);
            }
            Some(())
        },
    ),
];

pub const MANY: &[Named] = &[
    ("one subtable too many", |call, random| {
        lengthen(call, random, |entered| 65_536 - entered)
    }),
    (
        "as many subtables as a lookup counts, and new ones",
        |call, random| lengthen(call, random, |_| 65_535),
    ),
];

/// Gives so many slots to a lookup in which new tables are to be entered, by empty ones. `slots` is told how
/// many these are.
fn lengthen(
    call: &mut Call<u32>,
    random: &mut Random,
    slots: impl Fn(usize) -> usize,
) -> Option<()> {
    let lookups = rewritten(call)?;
    let lookup = &lookups[random.below(lookups.len())];
    let edition = Edition::of(call.edition)?;
    let cuts = answers::open(&call.store, call.table)
        .ok()??
        .cut_places(edition)
        .len();
    (cuts > 0).then_some(())?;
    let slots = slots(cuts * listings(lookup, call.table).count());
    let more = slots.checked_sub(lookup.slots.len())?;
    let (number, end) = (lookup.number, LOOKUP_HEADER + 2 * lookup.slots.len());
    change(call, number, |bytes| {
        bytes.splice(end..end, vec![0; 2 * more]);
    })?;
    set(call, number, 4, slots as u16)
}

/// The lookups that are written anew, whatever the table is.
fn rewritten(call: &Call<u32>) -> Option<Vec<Lookup>> {
    answers::open_lookups(&call.store, call.lookup_list, call.table).ok()
}

/// The positions at which a lookup lists a table.
fn listings(lookup: &Lookup, table: u32) -> impl Iterator<Item = u32> + '_ {
    let slots = (LOOKUP_HEADER as u32..).step_by(2).zip(&lookup.slots);
    let listings = slots.filter(move |(_, child)| **child == Some(table));
    listings.map(|(slot, _)| slot)
}

/// The lookups that the list leads to, slot by slot.
fn listed(call: &Call<u32>) -> Vec<u32> {
    let rows = call.store.links_in_use().iter();
    let of_list = rows.filter(|row| link::is_offset(row) && row[0] == call.lookup_list);
    of_list.map(|row| row[3]).collect()
}

/// Any lookup of the list, whatever its type.
fn any_lookup(call: &Call<u32>, random: &mut Random) -> Option<u32> {
    let lookups = listed(call);
    let &lookup = lookups.get(random.below(lookups.len().max(1)))?;
    (!is_itself(call, lookup)).then_some(lookup)
}

/// Whether a lookup is the list: what is wrong with it might then be wrong with the list, and is tried there.
fn is_itself(call: &Call<u32>, lookup: u32) -> bool {
    lookup == call.lookup_list
}

fn word(call: &Call<u32>, object: u32, position: usize) -> Option<u16> {
    u16_at(edit::bytes(&call.store, object), position)
}

fn set(call: &mut Call<u32>, object: u32, position: usize, word: u16) -> Option<()> {
    edit::set_word(&mut call.store, object, position, word);
    Some(())
}

/// Changes the bytes of an object.
fn change(call: &mut Call<u32>, object: u32, change: impl Fn(&mut Vec<u8>)) -> Option<()> {
    let mut bytes = edit::bytes(&call.store, object).to_vec();
    change(&mut bytes);
    edit::replace(&mut call.store, object, &bytes);
    Some(())
}

/// Leads a position of an object to the table, if the object is long enough.
fn stray(call: &mut Call<u32>, object: u32, position: usize) -> Option<()> {
    let fits = position + 2 <= edit::bytes(&call.store, object).len();
    fits.then(|| edit::link(&mut call.store, object, position as u32, call.table))
}

/// Changes a few things of a call at random, among them its list and the lookups of it.
pub fn scramble_lookups(call: &Call<u32>, random: &mut Random) -> Call<u32> {
    let mut call = match random.one_in(2) {
        true => super::scramble(call, random),
        false => call.clone(),
    };
    for _ in 0..random.within(1..=2) {
        match random.below(6) {
            0 => call.lookup_list = nudged(call.lookup_list, random),
            1 => call.lookup_list = random.pick(&[call.table, 0]),
            2..=3 => relink(&mut call, random),
            _ => change_byte(&mut call, random),
        }
    }
    call
}

/// The list, and objects that it leads to.
fn around_the_list(call: &Call<u32>) -> Vec<u32> {
    [&[call.lookup_list], &listed(call)[..]].concat()
}

/// Leads a link of the list, or of a lookup, to some object.
fn relink(call: &mut Call<u32>, random: &mut Random) {
    let parents = around_the_list(call);
    let [_, objects, links] = call.store.counts.map(|count| count as usize);
    let rows = call.store.links.as_chunks_mut::<{ link::NUMBERS }>().0;
    let in_use = links.min(rows.len());
    let mut of_list: Vec<_> = rows[..in_use]
        .iter_mut()
        .filter(|row| parents.contains(&row[0]))
        .collect();
    if !of_list.is_empty() {
        let any = random.below(objects.max(1)) as u32;
        let place = random.below(of_list.len());
        let around = random.pick(&parents);
        of_list[place][3] = random.pick(&[any, call.table, around]);
    }
}

/// Changes a byte among the first of the list, or of a lookup of it.
fn change_byte(call: &mut Call<u32>, random: &mut Random) {
    let object = random.pick(&around_the_list(call));
    let head = edit::head(&call.store, object);
    let bytes = call.store.data.get_mut(head..).unwrap_or_default();
    if let Some(byte) = bytes.get_mut(random.below(12)) {
        *byte = random.pick(&[0, 1, 2, 0x10, byte.wrapping_add(1)]);
    }
}
