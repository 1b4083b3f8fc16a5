//! Pair sets that are unsorted, or not as long as their counts say.

use super::{Asked, Fault, Part, Place, Wanted};
use crate::{
    table::{record_size, word},
    Kind,
};

/// What is wrong with the first of the linked pair sets, in the order of their slots.
pub(super) fn unsorted(asked: &Asked) -> Option<Fault> {
    if asked.kind != Kind::Pairs || asked.format() != 1 {
        return None;
    }
    let record = 2 + record_size(asked.bytes());
    let links = asked.store.offsets_of(asked.table);
    let slots = links.filter(|link| link.position >= 10 && link.position % 2 == 0);
    let mut before = None;
    let mut sets = slots
        .map(|link| link.child)
        .filter(|set| before.replace(*set) != Some(*set));
    sets.find_map(|set| in_set(set, asked.store.object(set).unwrap_or_default(), record))
}

/// What is wrong with a pair set whose records have so many bytes.
fn in_set(object: u32, set: &[u8], record: usize) -> Option<Fault> {
    let part = Part::PairSet;
    let count = word(set, 0);
    let wanted = 2 + record * count;
    if set.len() != wanted {
        let place = Place::Length { object, part };
        let (wanted, because) = match set.len() {
            0 | 1 => (Wanted::AtLeast(2), "to have a count"),
            _ => (Wanted::Exactly(wanted as u64), "by its count of records"),
        };
        return Some(Fault::number(place, set.len(), wanted, because));
    }
    let glyph = |number: usize| word(set, 2 + record * number);
    let number = (1..count).find(|&number| glyph(number) <= glyph(number - 1))?;
    let place = Place::Bytes {
        object,
        part,
        at: 2 + record * number,
        name: "the second glyph of record",
        entry: Some(number),
    };
    let wanted = Wanted::Above(glyph(number - 1) as u64);
    let because = "the second glyph of the record before it";
    Some(Fault::number(place, glyph(number), wanted, because))
}
