//! A MarkBasePos table of a font.

use super::{
    bytes::Bytes,
    error::FontError,
    lengths,
    loader::{Budget, Loader, Placed},
};
use crate::Store;
use std::collections::HashSet;

const WHAT: &str = "a mark table";

/// A MarkBasePos table with all that it leads to, as object [`TABLE`](super::TABLE) of a store.
pub fn load_marks(gpos: Bytes, start: usize) -> Result<Store, FontError> {
    load_marks_within(gpos, start, &Budget::for_table())
}

pub(super) fn load_marks_within(
    gpos: Bytes,
    start: usize,
    budget: &Budget,
) -> Result<Store, FontError> {
    let mut loader = Loader::new(gpos, budget);
    match gpos.u16(start, WHAT)? {
        1 => Marks::new(&mut loader).load(start)?,
        _ => drop(loader.object(start, 2, WHAT)?),
    }
    loader.finish()
}

/// A table in the making.
struct Marks<'a, 'b> {
    loader: &'b mut Loader<'a>,
    /// The anchors whose devices are linked.
    known: HashSet<u32>,
}

impl<'a, 'b> Marks<'a, 'b> {
    fn new(loader: &'b mut Loader<'a>) -> Self {
        Self {
            loader,
            known: HashSet::new(),
        }
    }

    fn load(&mut self, start: usize) -> Result<(), FontError> {
        let table = self.loader.object(start, 12, WHAT)?;
        for position in [2, 4] {
            let length = lengths::coverage;
            self.loader
                .link_part(table, position, length, "a coverage")?;
        }
        let classes = self.loader.gpos.u16(start + 6, WHAT)?;
        self.link_marks(table)?;
        self.link_bases(table, classes)
    }

    /// The mark array: a count, and for each mark a class and an anchor.
    fn link_marks(&mut self, table: Placed) -> Result<(), FontError> {
        let what = "a mark array";
        let Some(start) = self.loader.offset(table, 8, WHAT)? else {
            return Ok(());
        };
        let count = self.loader.gpos.u16(start, what)?;
        let array = self.loader.object(start, 2 + 4 * count, what)?;
        self.loader.link(table, 8, array)?;
        self.link_anchors(array, (4..).step_by(4).take(count))
    }

    /// The base array: a count, and for each base an anchor a class.
    fn link_bases(&mut self, table: Placed, classes: usize) -> Result<(), FontError> {
        let what = "a base array";
        let Some(start) = self.loader.offset(table, 10, WHAT)? else {
            return Ok(());
        };
        let count = self.loader.gpos.u16(start, what)? * classes;
        let array = self.loader.object(start, 2 + 2 * count, what)?;
        self.loader.link(table, 10, array)?;
        self.link_anchors(array, (2..).step_by(2).take(count))
    }

    fn link_anchors(
        &mut self,
        array: Placed,
        slots: impl Iterator<Item = usize>,
    ) -> Result<(), FontError> {
        for slot in slots {
            let anchor = self
                .loader
                .link_part(array, slot, lengths::anchor, "an anchor")?;
            if let Some(anchor) = anchor {
                self.link_devices(anchor)?;
            }
        }
        Ok(())
    }

    /// Format 3 has a device for each direction.
    fn link_devices(&mut self, anchor: Placed) -> Result<(), FontError> {
        let format = self.loader.gpos.u16(anchor.start, "an anchor")?;
        if format == 3 && self.known.insert(anchor.object) {
            for position in [6, 8] {
                let length = lengths::device;
                self.loader
                    .link_part(anchor, position, length, "a device")?;
            }
        }
        Ok(())
    }
}
