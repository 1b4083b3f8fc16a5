//! A PairPos table of a font.

use super::{
    bytes::Bytes,
    error::FontError,
    lengths,
    loader::{Budget, Loader, Placed},
};
use crate::Store;
use std::collections::HashSet;

const WHAT: &str = "a pair table";

/// A PairPos table with all that it leads to, as object [`TABLE`](super::TABLE) of a store.
pub fn load_pairs(gpos: Bytes, start: usize) -> Result<Store, FontError> {
    load_pairs_within(gpos, start, &Budget::for_table())
}

pub(super) fn load_pairs_within(
    gpos: Bytes,
    start: usize,
    budget: &Budget,
) -> Result<Store, FontError> {
    let mut loader = Loader::new(gpos, budget);
    match gpos.u16(start, WHAT)? {
        1 => loader.load_sets(start)?,
        2 => loader.load_rows(start)?,
        _ => drop(loader.object(start, 2, WHAT)?),
    }
    loader.finish()
}

impl Loader<'_> {
    fn load_sets(&mut self, start: usize) -> Result<(), FontError> {
        let values = Values::read(self.gpos, start)?;
        let count = self.gpos.u16(start + 8, WHAT)?;
        let table = self.object(start, 10 + 2 * count, WHAT)?;
        self.link_part(table, 2, lengths::coverage, "a coverage")?;
        let record = 2 + values.len;
        let mut known = HashSet::new();
        for slot in (10..).step_by(2).take(count) {
            let Some(start) = self.offset(table, slot, WHAT)? else {
                continue;
            };
            let count = self.gpos.u16(start, "a pair set")?;
            let set = self.object(start, 2 + record * count, "a pair set")?;
            self.link(table, slot, set)?;
            if known.insert(set.object) {
                self.link_devices(set, &values, (4..).step_by(record).take(count))?;
            }
        }
        Ok(())
    }

    fn load_rows(&mut self, start: usize) -> Result<(), FontError> {
        let values = Values::read(self.gpos, start)?;
        let count = self.gpos.u16(start + 12, WHAT)? * self.gpos.u16(start + 14, WHAT)?;
        let table = self.object(start, 16 + values.len * count, WHAT)?;
        self.link_part(table, 2, lengths::coverage, "a coverage")?;
        for position in [8, 10] {
            self.link_part(table, position, lengths::class_def, "a class definition")?;
        }
        match values.len {
            0 => Ok(()),
            record => self.link_devices(table, &values, (16..).step_by(record).take(count)),
        }
    }

    /// Links the devices of values that stand at these positions.
    fn link_devices(
        &mut self,
        parent: Placed,
        values: &Values,
        records: impl Iterator<Item = usize>,
    ) -> Result<(), FontError> {
        if values.devices.is_empty() {
            return Ok(());
        }
        for record in records {
            for &device in &values.devices {
                self.link_part(parent, record + device, lengths::device, "a device")?;
            }
        }
        Ok(())
    }
}

/// What the values of a pair are made of.
struct Values {
    /// Their length.
    len: usize,
    /// Where in them the devices stand.
    devices: Vec<usize>,
}

impl Values {
    /// The fields of both value formats, of which the upper four of eight are devices.
    fn read(gpos: Bytes, start: usize) -> Result<Self, FontError> {
        let mut values = Self {
            len: 0,
            devices: Vec::new(),
        };
        for position in [4, 6] {
            let format = gpos.u16(start + position, WHAT)?;
            for field in (0..8).filter(|field| format >> field & 1 == 1) {
                if field >= 4 {
                    values.devices.push(values.len);
                }
                values.len += 2;
            }
        }
        Ok(values)
    }
}
