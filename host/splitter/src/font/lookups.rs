//! The lookups of a GPOS table.

use super::{bytes::Bytes, error::FontError};
use crate::Kind;

/// The type of lookups whose subtables lead to those of another type.
const EXTENSION: usize = 9;

const MOST_SUBTABLES: usize = 65_536;

/// The lookups of a GPOS table, and the subtables of one kind.
#[derive(Debug, Default, PartialEq, Eq)]
pub struct Lookups {
    /// How many there are.
    pub count: usize,
    /// How many of them are of the kind.
    pub of_kind: usize,
    /// The subtables of the kind.
    pub subtables: Vec<Subtable>,
    /// How many subtables were looked at.
    seen: usize,
}

/// A subtable.
#[derive(Clone, Copy, Debug, PartialEq, Eq)]
pub struct Subtable {
    /// The number of its lookup.
    pub lookup: usize,
    /// Its number in the lookup.
    pub number: usize,
    /// Where in the GPOS table it starts.
    pub start: usize,
}

impl Lookups {
    /// Reads the list of lookups, and those of a kind, as they are or through extensions.
    pub fn read(gpos: Bytes, kind: Kind) -> Result<Self, FontError> {
        let header = "the header of the GPOS table";
        let major = gpos.u16(0, header)?;
        if major != 1 {
            return Err(FontError::Version { major });
        }
        let mut lookups = Self::default();
        let list = gpos.u16(8, header)?;
        if list == 0 {
            return Ok(lookups);
        }
        lookups.count = gpos.u16(list, "the list of lookups")?;
        for lookup in 0..lookups.count {
            let start = list + gpos.u16(list + 2 + 2 * lookup, "the list of lookups")?;
            lookups.add(gpos, kind.lookup_type().into(), lookup, start)?;
        }
        Ok(lookups)
    }

    fn add(
        &mut self,
        gpos: Bytes,
        wanted: usize,
        lookup: usize,
        start: usize,
    ) -> Result<(), FontError> {
        let found = gpos.u16(start, "a lookup")?;
        let count = gpos.u16(start + 4, "a lookup")?;
        if found != wanted && found != EXTENSION {
            return Ok(());
        }
        let before = self.subtables.len();
        self.seen += count;
        if self.seen > MOST_SUBTABLES {
            return Err(FontError::ManySubtables);
        }
        for number in 0..count {
            let subtable = start + gpos.u16(start + 6 + 2 * number, "a lookup")?;
            let start = match found == wanted {
                true => Some(subtable),
                false => extended(gpos, wanted, subtable)?,
            };
            self.subtables.extend(start.map(|start| Subtable {
                lookup,
                number,
                start,
            }));
        }
        let any = self.subtables.len() > before || found == wanted;
        self.of_kind += usize::from(any);
        Ok(())
    }
}

/// Where the subtable of a type starts that an extension leads to, if it leads to one.
fn extended(gpos: Bytes, wanted: usize, start: usize) -> Result<Option<usize>, FontError> {
    let found = gpos.u16(start + 2, "an extension")?;
    let offset = gpos.u32(start + 4, "an extension")?;
    Ok((found == wanted).then_some(start + offset))
}
