//! What is wrong with a table's number, or with its length.

use super::{Asked, Fault, Part, Place, Wanted};
use crate::{table::row_size, Kind, StoreRef};

pub(super) fn not_in_use(asked: &Asked) -> Option<Fault> {
    number_not_in_use(asked.store, Place::Table, asked.table)
}

/// The number of an object that was asked for, where it is not in use.
pub(super) fn number_not_in_use(store: StoreRef, place: Place, number: u32) -> Option<Fault> {
    let [_, objects, _] = store.counts();
    let wanted = Wanted::Below(objects.into());
    (number >= objects).then(|| {
        let because = "how many objects are in use";
        Fault::number(place, number as usize, wanted, because)
    })
}

pub(super) fn without_format(asked: &Asked) -> Option<Fault> {
    let wanted = Wanted::AtLeast(2);
    (asked.bytes().len() < 2).then(|| of_table(asked, wanted, "to have a format"))
}

pub(super) fn length(asked: &Asked) -> Option<Fault> {
    let bytes = asked.bytes();
    let (header, of_items) = match (asked.kind, asked.format()) {
        (Kind::Marks, _) => (12, 0),
        (Kind::Pairs, 1) => (10, 2 * asked.items()),
        (Kind::Pairs, _) => (16, asked.items() * row_size(bytes)),
    };
    let wanted = (header + of_items) as u64;
    if bytes.len() < header {
        let wanted = Wanted::AtLeast(header as u64);
        return Some(of_table(asked, wanted, "to have a header"));
    }
    (bytes.len() as u64 != wanted).then(|| {
        let because = match asked.kind {
            Kind::Pairs => "by its header",
            Kind::Marks => "as every mark-to-base table's is",
        };
        of_table(asked, Wanted::Exactly(wanted), because)
    })
}

fn of_table(asked: &Asked, wanted: Wanted, because: &'static str) -> Fault {
    length_fault(
        asked.table,
        Part::Table,
        asked.bytes().len(),
        wanted,
        because,
    )
}

/// The length of an object that is not what it must be.
pub(super) fn length_fault(
    object: u32,
    part: Part,
    found: usize,
    wanted: Wanted,
    because: &'static str,
) -> Fault {
    Fault::number(Place::Length { object, part }, found, wanted, because)
}
