//! A lookup applied to two glyphs.

use super::Lookup;
use crate::{
    model::{
        answers::{self, Opening},
        objects::Objects,
        pairs,
        reach::Seen,
        table::PairPos,
    },
    Pair,
};
use oracle::Store;
use std::collections::HashMap;

/// The subtables of a lookup, in order: those with a link.
#[derive(Debug)]
pub struct Subtables<'a> {
    objects: Objects<'a>,
    tables: Vec<u32>,
    /// What the pair reading makes of each.
    openings: HashMap<u32, Opening<PairPos<'a>>>,
}

impl<'a> Subtables<'a> {
    /// The subtables of a lookup of a sound store.
    pub fn of(store: &'a Store, lookup: u32) -> Option<Self> {
        let objects = Objects::of(store)?;
        let lookup = Lookup::read(objects, lookup)?;
        let tables: Vec<u32> = lookup.slots.into_iter().flatten().collect();
        let mut openings = HashMap::new();
        for &table in &tables {
            let opening = openings.entry(table);
            opening.or_insert_with(|| answers::open_to_read(store, table));
        }
        Some(Self {
            objects,
            tables,
            openings,
        })
    }

    /// Their numbers.
    pub fn numbers(&self) -> &[u32] {
        &self.tables
    }

    /// What the lookup says of two glyphs: the first subtable with a pair decides. One that is refused,
    /// or has another format, has no pair.
    pub fn apply(&self, glyphs: [u16; 2]) -> Pair {
        let mut pairs = self.readable().map(|table| pairs::read(table, glyphs));
        pairs.find(|pair| pair.found == 1).unwrap_or_default()
    }

    /// Those that are read.
    pub fn readable(&self) -> impl Iterator<Item = &PairPos<'a>> {
        let openings = self.tables.iter().map(|table| &self.openings[table]);
        openings.filter_map(|opening| opening.as_ref().ok()?.as_ref())
    }

    /// Whether all are read without refusal, and none but the table itself reaches the table: then a split
    /// of it changes nothing of what the lookup says.
    pub fn stay_with(&self, table: u32) -> bool {
        self.openings.iter().all(|(&subtable, opening)| {
            opening.is_ok() && (subtable == table || !self.reaches(subtable, table))
        })
    }

    fn reaches(&self, subtable: u32, table: u32) -> bool {
        let mut seen = Seen::nothing(self.objects);
        seen.count(self.objects.offsets_of(subtable));
        seen.has(table)
    }
}
