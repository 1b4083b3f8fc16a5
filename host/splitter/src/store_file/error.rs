//! Why a file is no store file.

use super::VERSION;
use crate::Refusal;
use std::{
    error::Error,
    fmt::{self, Display, Formatter},
};

/// Why a file is no store file, or a store cannot be one.
#[derive(Clone, Copy, Debug, PartialEq, Eq, Hash)]
#[non_exhaustive]
pub enum FileError {
    /// It does not start with [`MAGIC`](super::MAGIC).
    NotAStoreFile,
    /// It has version 0, or one that is newer than [`VERSION`].
    Version {
        /// The version that it has.
        version: u16,
    },
    /// It is shorter or longer than its header asks for.
    Length {
        /// How long it is.
        is: u64,
        /// How long its header asks it to be, or how long a header is.
        asked: u64,
    },
    /// Its store is refused.
    Store(Refusal),
    /// It lists a table of a kind that is not known.
    Kind {
        /// The type of lookup that it gives.
        kind: u16,
    },
    /// It has a version that is higher than it needs.
    NeedlessVersion {
        /// The version that it has.
        version: u16,
        /// The lowest version that can say what it holds.
        lowest: u16,
    },
    /// It lists a table that is not in use.
    NoTable {
        /// The table.
        table: u32,
        /// How many objects are in use.
        objects: u32,
    },
    /// It lists a table twice.
    TableTwice {
        /// The table.
        table: u32,
    },
    /// There are more tables than a file can list, 65,535.
    ManyTables,
}

impl Display for FileError {
    fn fmt(&self, f: &mut Formatter) -> fmt::Result {
        match self {
            Self::NotAStoreFile => f.write_str(
                "it is not a store file: it does not start with the letters KRNS",
            ),
            Self::Version { version } => write!(
                f,
                "it is a store file of version {version}, and only versions 1 to {VERSION} are known: \
                 write it in one of these, or take a splitter that knows this one"
            ),
            Self::Length { is, asked } => write!(
                f,
                "it is {is} bytes long, and its header asks for {asked}: write it again, whole and \
                 with nothing behind it"
            ),
            Self::Store(refusal) => refusal.fmt(f),
            Self::Kind { kind } => write!(
                f,
                "it lists a table of lookup type {kind}, and only 2 (PairPos) and 4 (MarkBasePos) are \
                 known: list only tables of these"
            ),
            Self::NeedlessVersion { version, lowest } => write!(
                f,
                "it is a store file of version {version}, and holds nothing that version {lowest} cannot \
                 say: write it in version {lowest}"
            ),
            Self::NoTable { table, objects } => write!(
                f,
                "it lists table {table}, and has {objects} objects: list only numbers below that"
            ),
            Self::TableTwice { table } => {
                write!(f, "it lists table {table} twice: list each table once")
            }
            Self::ManyTables => {
                f.write_str("it has more than 65,535 tables to list: list them in several files")
            }
        }
    }
}

impl Error for FileError {
    fn source(&self) -> Option<&(dyn Error + 'static)> {
        match self {
            Self::Store(refusal) => Some(refusal),
            _ => None,
        }
    }
}
