//! A table of a store, as its header describes it.

use crate::{explain::Part, Kind, StoreRef};

/// A table of a store. Whatever it is given, it describes somehow.
#[derive(Clone, Copy)]
pub(crate) struct TableRef<'a> {
    pub kind: Kind,
    pub store: StoreRef<'a>,
    /// Its number.
    pub table: u32,
}

impl<'a> TableRef<'a> {
    /// Its bytes.
    pub fn bytes(&self) -> &'a [u8] {
        self.store.object(self.table).unwrap_or_default()
    }

    pub fn format(&self) -> usize {
        word(self.bytes(), 0)
    }

    /// Whether it has a format that is split.
    pub fn is_split(&self) -> bool {
        match self.kind {
            Kind::Pairs => matches!(self.format(), 1 | 2),
            Kind::Marks => self.format() == 1,
        }
    }

    /// How many pair sets, rows or mark classes the header counts.
    pub fn items(&self) -> usize {
        let place = match (self.kind, self.format()) {
            (Kind::Pairs, 1) => 8,
            (Kind::Pairs, _) => 12,
            (Kind::Marks, _) => 6,
        };
        word(self.bytes(), place)
    }

    /// The object that is a part, and its bytes, if it is linked.
    pub fn part(&self, part: Part) -> Option<(u32, &'a [u8])> {
        let object = self.store.child(self.table, part.position(self.kind)?)?;
        Some((object, self.store.object(object)?))
    }

    /// The bytes of a part, or none where it is not linked.
    pub fn part_bytes(&self, part: Part) -> &'a [u8] {
        self.part(part).map_or(&[], |(_, bytes)| bytes)
    }
}

/// The bytes of a row of format 2 of pairs.
pub(crate) fn row_size(table: &[u8]) -> usize {
    record_size(table) * word(table, 14)
}

/// The bytes of the two values of a pair: two for each of the low eight bits of either format.
pub(crate) fn record_size(table: &[u8]) -> usize {
    let fields = [4, 6].map(|place| (word(table, place) & 0xFF).count_ones() as usize);
    2 * (fields[0] + fields[1])
}

/// The number at a place, or 0 where there is none.
pub(crate) fn word(bytes: &[u8], place: usize) -> usize {
    match bytes.get(place..place + 2) {
        Some(&[high, low]) => u16::from_be_bytes([high, low]).into(),
        _ => 0,
    }
}
