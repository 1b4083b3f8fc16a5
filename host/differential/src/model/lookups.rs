//! Lookup lists: the lookups that a list leads to, and the subtables that each of them lists.

pub mod applied;
pub mod entered;

use super::{numbers::head, objects::Objects};
use std::collections::HashSet;

/// The type of lookups whose subtables are PairPos tables.
pub const PAIR_TYPE: u16 = 2;

/// The bit of a flag that says that a mark filtering set stands behind the offsets.
pub const FILTERS: u16 = 0x0010;

/// Where the offsets of a list start.
pub const LIST_HEADER: usize = 2;

/// Where the offsets of a lookup start.
pub const LOOKUP_HEADER: usize = 6;

/// A lookup that is as long as it says, and whose links all stand at slots.
#[derive(Clone, Debug, PartialEq, Eq)]
pub struct Lookup {
    /// Its number.
    pub number: u32,
    /// Its type.
    pub lookup_type: u16,
    /// What each slot leads to. One without a link is no fault.
    pub slots: Vec<Option<u32>>,
}

impl Lookup {
    /// Reads type, flag, count and offsets, and the set of a filter where the flag says so.
    pub fn read(objects: Objects, number: u32) -> Option<Self> {
        let ([lookup_type, flag, count], rest) = head(objects.bytes(number))?;
        let filter = if flag & FILTERS == 0 { 0 } else { 2 };
        let is_exact = rest.len() == 2 * usize::from(count) + filter;
        let slots = slots(objects, number, LOOKUP_HEADER, count)?;
        is_exact.then_some(Self {
            number,
            lookup_type,
            slots,
        })
    }

    /// Whether its subtables are PairPos tables.
    pub fn is_of_pairs(&self) -> bool {
        self.lookup_type == PAIR_TYPE
    }

    /// Whether it names a subtable.
    pub fn names(&self, table: u32) -> bool {
        self.slots.contains(&Some(table))
    }
}

/// The lookups that a list leads to, in its order, each once. Nothing where the list, or one of them,
/// is not as long as it says or has a link at no slot.
pub fn read(objects: Objects, list: u32) -> Option<Vec<Lookup>> {
    let ([count], offsets) = head(objects.bytes(list))?;
    let slots = slots(objects, list, LIST_HEADER, count)?;
    if offsets.len() != 2 * usize::from(count) {
        return None;
    }
    let mut seen = HashSet::new();
    let numbers = slots.into_iter().flatten();
    let numbers = numbers.filter(|&number| seen.insert(number));
    numbers
        .map(|number| Lookup::read(objects, number))
        .collect()
}

/// What each of so many slots leads to; nothing where an offset stands at none of them.
fn slots(objects: Objects, parent: u32, first: usize, count: u16) -> Option<Vec<Option<u32>>> {
    let mut slots = vec![None; count.into()];
    for offset in objects.offsets_of(parent) {
        let past_first = (offset[1] as usize).checked_sub(first)?;
        let slot = slots.get_mut(past_first / 2)?;
        *slot = (past_first % 2 == 0).then_some(Some(offset[3]))?;
    }
    Some(slots)
}
