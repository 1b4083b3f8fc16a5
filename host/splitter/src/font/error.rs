//! What is wrong with a font.

use crate::Refusal;
use std::fmt::{self, Display, Formatter};

/// What is wrong with a font.
#[derive(Clone, Copy, Debug, PartialEq, Eq)]
pub enum FontError {
    /// It does not start as a font does.
    NotAFont,
    /// It is a font that is packed for the web.
    Packed,
    /// It is a collection without a font.
    NoFonts,
    /// Its GPOS table has a version other than 1.
    Version {
        /// That version.
        major: usize,
    },
    /// It has so many subtables that no font has them.
    ManySubtables,
    /// Its tables have so many parts in common that no font has them.
    TooMuch,
    /// It has no such subtable for pairs or for marks on bases.
    NoSubtable {
        /// The number of the lookup.
        lookup: usize,
        /// The number in the lookup.
        subtable: usize,
    },
    /// It ends within something.
    Ends {
        /// What that is.
        what: &'static str,
        /// Where in the file it starts.
        at: usize,
    },
    /// A subtable is more than a store holds.
    Store(Refusal),
}

impl Display for FontError {
    fn fmt(&self, f: &mut Formatter) -> fmt::Result {
        match self {
            Self::NotAFont => f.write_str(
                "it is no TrueType or OpenType font: it starts with none of their version tags",
            ),
            Self::Packed => {
                f.write_str("it is a WOFF font: unpack it to a TrueType or OpenType file first")
            }
            Self::NoFonts => f.write_str("it is a collection with no fonts in it"),
            Self::Version { major } => {
                write!(
                    f,
                    "its GPOS table has version {major}, and only version 1 is known"
                )
            }
            Self::ManySubtables => {
                f.write_str("it lists more than 65,536 subtables: it is damaged")
            }
            Self::TooMuch => f.write_str(
                "its tables have so many parts in common that loading them all would take too long: \
                 it is damaged",
            ),
            Self::NoSubtable { lookup, subtable } => write!(
                f,
                "it has no table for pairs or for marks on bases that is subtable {subtable} of \
                 lookup {lookup}"
            ),
            Self::Ends { what, at } => {
                write!(
                    f,
                    "it is damaged: {what} at byte {at} lies past the end, or some of it does"
                )
            }
            Self::Store(refusal) => refusal.fmt(f),
        }
    }
}

impl std::error::Error for FontError {}

impl From<Refusal> for FontError {
    fn from(refusal: Refusal) -> Self {
        Self::Store(refusal)
    }
}
