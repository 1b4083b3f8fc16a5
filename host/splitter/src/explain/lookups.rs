//! What is wrong with a lookup list, or with a lookup of it.

use super::{
    links::stray,
    table::{length_fault, number_not_in_use},
    Asked, Fault, Part, Place, Wanted,
};
use crate::{
    lookup::{lookups_of, Naming, FILTERS, HEADER, LIST_HEADER},
    table::word,
    Kind,
};

/// The most subtables that a lookup counts.
const MOST: usize = 65_535;

pub(super) fn list_not_in_use(asked: &Asked) -> Option<Fault> {
    number_not_in_use(asked.store, Place::LookupList, asked.call.list()?)
}

/// The list, then its lookups in order, then whether one names the table.
pub(super) fn bad_list(asked: &Asked) -> Option<Fault> {
    let list = asked.call.list()?;
    let lookups = lookups_of(asked.store, list);
    in_list(asked, list)
        .or_else(|| lookups.iter().find_map(|&lookup| in_lookup(asked, lookup)))
        .or_else(|| not_named(asked, list, &lookups))
}

fn in_list(asked: &Asked, list: u32) -> Option<Fault> {
    let bytes = bytes(asked, list);
    let exactly = LIST_HEADER + 2 * word(bytes, 0);
    let because = "by its count of lookups";
    not_exactly(list, Part::LookupList, bytes, LIST_HEADER, exactly, because)
        .or_else(|| at_no_slot(asked, list, Part::LookupList, LIST_HEADER, exactly))
}

fn in_lookup(asked: &Asked, lookup: u32) -> Option<Fault> {
    let bytes = bytes(asked, lookup);
    let offsets_end = HEADER + 2 * word(bytes, 4);
    let (filter_set, because) = match word(bytes, 2) & usize::from(FILTERS) {
        0 => (0, "by its count of subtables"),
        _ => (2, "by its count of subtables and with a mark filtering set"),
    };
    let exactly = offsets_end + filter_set;
    not_exactly(lookup, Part::Lookup, bytes, HEADER, exactly, because)
        .or_else(|| at_no_slot(asked, lookup, Part::Lookup, HEADER, offsets_end))
}

fn bytes<'a>(asked: &Asked<'a>, object: u32) -> &'a [u8] {
    asked.store.object(object).unwrap_or_default()
}

fn not_exactly(
    object: u32,
    part: Part,
    bytes: &[u8],
    header: usize,
    exactly: usize,
    because: &'static str,
) -> Option<Fault> {
    let (wanted, because) = match bytes.len() {
        len if len < header => (Wanted::AtLeast(header as u64), "to have a header"),
        len if len != exactly => (Wanted::Exactly(exactly as u64), because),
        _ => return None,
    };
    Some(length_fault(object, part, bytes.len(), wanted, because))
}

/// A link that stands at none of the offsets, which go from one place up to another.
fn at_no_slot(asked: &Asked, object: u32, part: Part, first: usize, end: usize) -> Option<Fault> {
    let is_slot = |at: usize| (first..end).contains(&at) && (at - first).is_multiple_of(2);
    stray(asked, object, part, is_slot)
}

/// No lookup for pairs names the table: it is the type of the first that does, or none does.
fn not_named(asked: &Asked, list: u32, lookups: &[u32]) -> Option<Fault> {
    let table = asked.table;
    let names = |lookup: u32| {
        asked
            .store
            .offsets_of(lookup)
            .any(|link| link.child == table)
    };
    let type_of = |lookup: u32| word(bytes(asked, lookup), 0);
    let pairs = usize::from(Kind::Pairs.lookup_type());
    let mut naming = lookups.iter().copied().filter(|&lookup| names(lookup));
    let Some(first) = naming.clone().next() else {
        return Some(Fault::NotListed { list, table });
    };
    naming.all(|lookup| type_of(lookup) != pairs).then(|| {
        let place = Place::Bytes {
            object: first,
            part: Part::Lookup,
            at: 0,
            name: "type",
            entry: None,
        };
        let wanted = Wanted::Exactly(pairs as u64);
        Fault::number(place, type_of(first), wanted, "to list a table for pairs")
    })
}

pub(super) fn many_subtables(asked: &Asked) -> Option<Fault> {
    let cuts = asked.cuts()?.len();
    let naming = Naming::all(asked.store, asked.call.list()?, asked.table);
    naming.into_iter().find_map(
        |Naming {
             lookup, listings, ..
         }| {
            let found = word(bytes(asked, lookup), 4) + cuts * listings;
            let because = "with the new tables behind each listing of the table";
            let wanted = Wanted::AtMost(MOST as u64);
            (found > MOST)
                .then(|| Fault::number(Place::Subtables { lookup }, found, wanted, because))
        },
    )
}
