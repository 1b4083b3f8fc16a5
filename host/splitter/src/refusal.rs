//! Why a call is refused.

use std::{
    error::Error,
    fmt::{self, Display, Formatter},
};

/// Why a call was refused. It changed nothing.
///
/// Where several apply, the first is given. [`explain`](crate::explain()) says what is at fault, of a call
/// over lookups [`explain_in_lookups`](crate::explain_in_lookups), and of a compaction
/// [`explain_compaction`](crate::explain_compaction).
#[derive(Clone, Copy, Debug, PartialEq, Eq, Hash)]
#[non_exhaustive]
pub enum Refusal {
    /// The edition is not 1 or 2. Only the functions of [`raw`](crate::raw) can be asked for such a one.
    BadEdition = 12,
    /// The store is not sound.
    Unsound = 1,
    /// The table's number is not in use, or that of a lookup, a lookup list or a root is not.
    NoTable = 2,
    /// A lookup list, or a lookup, has not exactly its length or has a link at no slot; or no lookup for
    /// pairs of the list names the table.
    BadList = 9,
    /// The table has not the length that its header asks for.
    BadTable = 3,
    /// A coverage, a class definition or an array is not linked, or cannot be read.
    BadParts = 4,
    /// A table has more pair sets, in PairPos format 1, or more marks than its coverage has glyphs.
    FewGlyphs = 5,
    /// A scratch is too short.
    ShortScratch = 6,
    /// A link of the table, or of a mark or base array, stands at no slot, or the table can be reached from
    /// itself.
    BadLinks = 7,
    /// A linked pair set has not exactly its length, or its second glyphs do not ascend.
    UnsortedSets = 11,
    /// A lookup would have more subtables than it can count.
    ManySubtables = 10,
    /// There is no room for what would be written.
    NoRoom = 8,
}

impl Refusal {
    /// All of them, in the order in which they are looked for.
    pub const ALL: [Self; 12] = [
        Self::BadEdition,
        Self::Unsound,
        Self::NoTable,
        Self::BadList,
        Self::BadTable,
        Self::BadParts,
        Self::FewGlyphs,
        Self::ShortScratch,
        Self::BadLinks,
        Self::UnsortedSets,
        Self::ManySubtables,
        Self::NoRoom,
    ];

    /// The number by which the functions of [`raw`](crate::raw) give it.
    pub const fn number(self) -> u32 {
        self as u32
    }

    /// The refusal that has this number.
    ///
    /// ```
    /// use splitter::Refusal;
    ///
    /// assert_eq!(Refusal::from_number(8), Some(Refusal::NoRoom));
    /// assert_eq!(Refusal::from_number(0), None);
    /// ```
    pub fn from_number(number: u32) -> Option<Self> {
        Self::ALL
            .into_iter()
            .find(|refusal| refusal.number() == number)
    }

    /// An answer as a result.
    pub(crate) fn answered(answer: u32) -> Result<(), Self> {
        match Self::from_number(answer) {
            Some(refusal) => Err(refusal),
            None if answer == 0 => Ok(()),
            None => unreachable!("{answer} is the number of no answer"),
        }
    }
}

impl Display for Refusal {
    fn fmt(&self, f: &mut Formatter) -> fmt::Result {
        f.write_str(match self {
            Self::BadEdition => {
                "the edition is not 1 or 2: pass 1 for the cuts that fielded fonts have, or 2 for cuts that \
                 keep to the limit"
            }
            Self::Unsound => {
                "the store is not sound: make its counts fit its buffers and the maxima, its objects \
                 follow one another within the data in use, and its links name objects in use and \
                 ascend by parent, kind, position and child, those of kind 0 two bytes wide, within \
                 their parents and each at a position of its own, and those of kind 1 with position and \
                 width 0"
            }
            Self::NoTable => {
                "no object in use has the number of the table, the lookup, the lookup list or the root: \
                 give a number below the count of objects"
            }
            Self::BadList => {
                "the lookup list or a lookup of it has not exactly its length or has a link at no slot, or \
                 no lookup for pairs names the table: make the list 2 bytes and 2 for each lookup, a lookup 6 \
                 bytes and 2 for each subtable, and 2 more with a mark filtering set, link their offsets \
                 alone, and let a lookup of type 2 list the table"
            }
            Self::BadTable => {
                "the table's length is not what its header asks for: make it 10 bytes and 2 for each \
                 pair set in PairPos format 1, 16 bytes and all class records in PairPos format 2, or \
                 12 bytes in MarkBasePos"
            }
            Self::BadParts => {
                "a coverage, a class definition or an array is not linked or cannot be read: link each \
                 from the table's header, and write it as OpenType lays it out, sorted, with nothing \
                 behind it, and with mark classes below the table's class count"
            }
            Self::FewGlyphs => {
                "the coverage has fewer glyphs than the table has pair sets or marks: cover a glyph for \
                 each of them"
            }
            Self::ShortScratch => {
                "a scratch is too short: lend two numbers of walk for each object in use, 8,192 bytes of \
                 glyph set, glyphs and classes for each covered glyph, and cuts for each pair set, row or \
                 mark class"
            }
            Self::BadLinks => {
                "a link of the table, or of its mark or base array, stands at no slot or leads back to \
                 the table: remove it"
            }
            Self::UnsortedSets => {
                "a pair set has not exactly the length that its count asks for, or its second glyphs do not \
                 ascend: make it 2 bytes and all its records, sort these by second glyph, and have each \
                 second glyph once"
            }
            Self::ManySubtables => {
                "a lookup would have more than 65,535 subtables: list the table less often, or in several \
                 lookups"
            }
            Self::NoRoom => {
                "there is no room for what would be written: lend more data, objects, links or result \
                 entries, or take some out where the store is at its maxima"
            }
        })
    }
}

impl Error for Refusal {}
