//! What makes a store unsound.

use super::{Fault, LinkRow, Part, Place, Wanted};
use crate::{Link, LinkKind, Room, StoreRef};

const IN_USE: &str = "how many data bytes are in use";

/// The first thing of a store that is not sound: counts, then object rows, then link rows.
pub(super) fn fault(store: StoreRef) -> Option<Fault> {
    count(store)
        .or_else(|| object_row(store))
        .or_else(|| link_row(store))
}

fn count(store: StoreRef) -> Option<Fault> {
    let most = Room::MOST;
    let buffers = [
        ("data", most.data),
        ("objects", most.objects),
        ("links", most.links),
    ];
    let lent_and_counted = store.lent().into_iter().zip(store.counts());
    let mut buffers = buffers.into_iter().zip(lent_and_counted);
    buffers.find_map(|((name, most), (lent, count))| {
        let because = match lent < most {
            true => "as many as are lent",
            false => "the most that a store has",
        };
        let found = count as usize;
        let wanted = Wanted::AtMost(lent.min(most) as u64);
        (found > lent.min(most)).then(|| Fault::number(Place::Count(name), found, wanted, because))
    })
}

fn object_row(store: StoreRef) -> Option<Fault> {
    let [data, ..] = store.counts();
    let mut end = 0;
    for (row, &[head, tail]) in store.object_rows().iter().enumerate() {
        let [at_end, at_head] = [end, head].map(|least| Wanted::AtLeast(least.into()));
        let in_data = Wanted::AtMost(data.into());
        let before = "where the row before ends";
        let (place, found, wanted, because) = match [head, tail] {
            [head, _] if head < end => (Place::Head(row), head, at_end, before),
            [head, _] if head > data => (Place::Head(row), head, in_data, IN_USE),
            [_, tail] if tail < head => (Place::Tail(row), tail, at_head, "its head"),
            [_, tail] if tail > data => (Place::Tail(row), tail, in_data, IN_USE),
            [_, tail] => {
                end = tail;
                continue;
            }
        };
        return Some(Fault::number(place, found as usize, wanted, because));
    }
    None
}

fn link_row(store: StoreRef) -> Option<Fault> {
    let mut before: Option<LinkRow> = None;
    for (row, numbers) in store.link_rows().iter().enumerate() {
        let link = Link::of_row(numbers);
        let row = LinkRow { row, link };
        let behind = before.filter(|before| before.link.place() >= link.place());
        let out_of_order = behind.map(|before| Fault::Order {
            rows: [before, row],
        });
        let fault = link_numbers(store, row, numbers[2]).or(out_of_order);
        if fault.is_some() {
            return fault;
        }
        before = Some(row);
    }
    None
}

/// A number of a link row that cannot be: parent, child, kind, width, or position.
fn link_numbers(store: StoreRef, row: LinkRow, width: u32) -> Option<Fault> {
    let [_, objects, _] = store.counts();
    let in_use = Wanted::Below(objects.into());
    let because = "how many objects are in use";
    let Link {
        parent,
        kind,
        position,
        child,
    } = row.link;
    let Some(bytes) = store.object(parent) else {
        return wrong(row, "parent", parent, in_use, because);
    };
    if child >= objects {
        return wrong(row, "child", child, in_use, because);
    }
    if let LinkKind::Unknown(kind) = kind {
        let because = "an offset or an order-only link";
        return wrong(row, "kind", kind, Wanted::Either(0, 1), because);
    }
    if width != kind.width() {
        let wanted = Wanted::Exactly(kind.width().into());
        return wrong(row, "width", width, wanted, "");
    }
    match (kind, position) {
        (LinkKind::Offset, _) => outside(row, bytes),
        (_, 0) => None,
        _ => wrong(row, "position", position, Wanted::Exactly(0), ""),
    }
}

/// An offset that does not lie within its parent.
fn outside(row: LinkRow, parent: &[u8]) -> Option<Fault> {
    let position = row.link.position;
    match parent.len().checked_sub(2) {
        Some(last) if position as usize <= last => None,
        Some(last) => {
            let wanted = Wanted::AtMost(last as u64);
            wrong(
                row,
                "position",
                position,
                wanted,
                "to lie within its parent",
            )
        }
        None => {
            let place = Place::Length {
                object: row.link.parent,
                part: Part::Object,
            };
            let (found, wanted) = (parent.len(), Wanted::AtLeast(2));
            Some(Fault::number(place, found, wanted, "to have a link"))
        }
    }
}

/// A number of a link row that is not what it must be.
fn wrong(
    row: LinkRow,
    column: &'static str,
    found: u32,
    wanted: Wanted,
    because: &'static str,
) -> Option<Fault> {
    let place = Place::Link { row, column };
    Some(Fault::number(place, found as usize, wanted, because))
}
