//! Room that is too short for what a split writes, and for the lookups that it writes anew.

use super::{Asked, Call, Fault, Part, Place, Wanted};
use crate::{
    lookup::Naming,
    pieces::{pieces, Piece},
    Kind, Room,
};

pub(super) fn short(asked: &Asked) -> Option<Fault> {
    let cuts = asked.cuts()?;
    let list = asked.call.lent().list;
    if list < cuts.len() {
        let wanted = Wanted::AtLeast(cuts.len() as u64);
        return Some(Fault::number(Place::List, list, wanted, "one for each cut"));
    }
    match asked.call {
        Call::Split { .. } | Call::InLookups { .. } if !cuts.is_empty() => {
            short_store(asked, &need(asked, &cuts))
        }
        _ => None,
    }
}

fn short_store(asked: &Asked, need: &Room) -> Option<Fault> {
    let store = asked.store;
    let most = Room::MOST;
    let buffers = [
        ("data", most.data, need.data),
        ("objects", most.objects, need.objects),
        ("links", most.links, need.links),
    ];
    let lent_and_used = store.lent().into_iter().zip(store.counts());
    let mut buffers = buffers.into_iter().zip(lent_and_used);
    buffers.find_map(|((name, most, need), (lent, used))| {
        let room = lent.min(most) - used as usize;
        let because = match lent < most {
            true => "for what the split adds",
            false => "for what the split adds, and the store can be no larger",
        };
        let wanted = Wanted::AtLeast(need as u64);
        (room < need).then(|| Fault::number(Place::Room(name), room, wanted, because))
    })
}

/// What is written: new tables with parts of their own, and the kept table's own parts.
fn need(asked: &Asked, cuts: &[usize]) -> Room {
    let new = cuts.len();
    let (own_parts, links_each, links_once) = match (asked.kind, asked.format()) {
        (Kind::Pairs, 1) => (1, 1, 0),
        (Kind::Pairs, _) => (2, 3, 0),
        (Kind::Marks, _) => (3, 4, links_of_arrays(asked)),
    };
    let mut need = Room {
        data: data(asked, cuts),
        objects: new + (new + 1) * own_parts,
        links: new * links_each + links_once,
    };
    if let Some(list) = asked.call.list() {
        for lookup in Naming::all(asked.store, list, asked.table) {
            need.data += lookup.bytes + 2 * new * lookup.listings;
            need.objects += 1;
            need.links += lookup.links + new * lookup.listings;
        }
    }
    need
}

fn links_of_arrays(asked: &Asked) -> usize {
    let arrays = [Part::MarkArray, Part::BaseArray].map(|part| asked.part(part));
    let arrays = arrays.into_iter().flatten();
    arrays
        .map(|(array, _)| asked.store.offsets_of(array).len())
        .sum()
}

fn data(asked: &Asked, cuts: &[usize]) -> usize {
    let pieces = pieces(asked.of, cuts);
    let parts = pieces.iter().flat_map(Piece::own_parts);
    let new_tables = pieces.iter().skip(1).map(Piece::table);
    parts.chain(new_tables).sum()
}
