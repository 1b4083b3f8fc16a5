//! The tables that a file is about.

use super::{version::has_table_kinds, FileError};
use crate::Kind;

/// A table that a file is about.
#[derive(Clone, Copy, Debug, PartialEq, Eq, Hash)]
pub struct Table {
    /// Which object it is.
    pub number: u32,
    /// What it is for.
    pub kind: Kind,
}

impl Table {
    /// A PairPos table.
    pub const fn pairs(number: u32) -> Self {
        Self {
            number,
            kind: Kind::Pairs,
        }
    }

    /// A MarkBasePos table.
    pub const fn marks(number: u32) -> Self {
        Self {
            number,
            kind: Kind::Marks,
        }
    }
}

/// The four bytes of a table: its number, in a version that says what it is for behind its kind.
pub(super) fn entry(version: u16, table: &Table) -> u32 {
    let kind = match has_table_kinds(version) {
        true => u32::from(table.kind.lookup_type()),
        false => 0,
    };
    kind << 16 | table.number
}

/// The tables of these entries.
pub(super) fn listed(version: u16, entries: &[u32]) -> Result<Vec<Table>, FileError> {
    if !has_table_kinds(version) {
        return Ok(entries.iter().map(|&number| Table::pairs(number)).collect());
    }
    let tables = entries.iter().map(|&entry| {
        let (kind, number) = ((entry >> 16) as u16, entry & 0xFFFF);
        let known = Kind::of_lookup(kind).ok_or(FileError::Kind { kind })?;
        Ok(Table {
            number,
            kind: known,
        })
    });
    tables.collect()
}
