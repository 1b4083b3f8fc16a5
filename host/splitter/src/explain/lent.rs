//! What a call is lent beside the store.

use super::{Asked, Fault, Part, Place, Wanted};
use crate::{glyphs, Edition, Kind, Refusal, StoreRef};

/// A call, with what it is lent beside the store.
#[derive(Clone, Copy, Debug, PartialEq, Eq)]
pub enum Call {
    /// A reading of a pair or of an attachment.
    Reading,
    /// A cut plan.
    Plan {
        /// The number of the edition.
        edition: u32,
        /// What it is lent.
        lent: Lent,
    },
    /// A split. The room is that of the store's buffers.
    Split {
        /// The number of the edition.
        edition: u32,
        /// What it is lent beside the store.
        lent: Lent,
    },
    /// A split whose new tables are entered in the lookups of a list. It is of pair tables alone.
    InLookups {
        /// The number of the list.
        list: u32,
        /// The number of the edition.
        edition: u32,
        /// What it is lent beside the store.
        lent: Lent,
    },
}

/// The lengths of scratch and list, in numbers.
#[derive(Clone, Copy, Debug, PartialEq, Eq)]
pub struct Lent {
    /// Of `walk`.
    pub walk: usize,
    /// Of `glyph_set`.
    pub glyph_set: usize,
    /// Of `glyphs`.
    pub glyphs: usize,
    /// Of `classes`.
    pub classes: usize,
    /// Of `cuts`.
    pub cuts: usize,
    /// Of the list that takes the result.
    pub list: usize,
}

impl Lent {
    /// Enough for any table, as this library lends it.
    pub const ENOUGH: Self = Self {
        walk: usize::MAX,
        glyph_set: usize::MAX,
        glyphs: usize::MAX,
        classes: usize::MAX,
        cuts: usize::MAX,
        list: usize::MAX,
    };
}

impl Call {
    /// Whether it is refused for this at all.
    pub(super) fn refuses(self, by: Refusal) -> bool {
        match by {
            Refusal::BadEdition | Refusal::ShortScratch | Refusal::BadLinks | Refusal::NoRoom => {
                self != Self::Reading
            }
            Refusal::BadList | Refusal::ManySubtables => self.list().is_some(),
            _ => true,
        }
    }

    /// The number of its lookup list; other calls have none.
    pub(super) fn list(self) -> Option<u32> {
        match self {
            Self::InLookups { list, .. } => Some(list),
            Self::Reading | Self::Plan { .. } | Self::Split { .. } => None,
        }
    }

    /// The number of its edition; a reading has none.
    pub(super) fn edition(self) -> Option<u32> {
        match self {
            Self::Reading => None,
            Self::Plan { edition, .. }
            | Self::Split { edition, .. }
            | Self::InLookups { edition, .. } => Some(edition),
        }
    }

    /// What it is lent; a reading needs nothing.
    pub(super) fn lent(self) -> Lent {
        match self {
            Self::Reading => Lent::ENOUGH,
            Self::Plan { lent, .. } | Self::Split { lent, .. } | Self::InLookups { lent, .. } => {
                lent
            }
        }
    }
}

pub(super) fn bad_edition(asked: &Asked) -> Option<Fault> {
    let edition = asked.call.edition()?;
    let [first, second] = Edition::ALL.map(|edition| edition.number().into());
    let wanted = Wanted::Either(first, second);
    let fault = Fault::number(Place::Edition, edition as usize, wanted, "");
    Edition::from_number(edition).is_none().then_some(fault)
}

pub(super) fn short_scratch(asked: &Asked) -> Option<Fault> {
    let lent = asked.call.lent();
    let part = match asked.kind {
        Kind::Pairs => Part::Coverage,
        Kind::Marks => Part::MarkCoverage,
    };
    let (_, coverage) = asked.part(part)?;
    let covered = glyphs::covered(coverage).len();
    let of_glyphs = "one for each covered glyph";
    let buffers = [
        walk(asked.store, lent.walk),
        ("glyph_set", lent.glyph_set, 8_192, "one bit for each glyph"),
        ("glyphs", lent.glyphs, covered, of_glyphs),
        ("classes", lent.classes, covered, of_glyphs),
        ("cuts", lent.cuts, asked.items(), "one for each item"),
    ];
    buffers.into_iter().find_map(short)
}

/// A buffer by its name, how many numbers of it are lent, how many are needed, and for what.
type Buffer = (&'static str, usize, usize, &'static str);

/// The walk, of which so much is lent.
pub(super) fn walk(store: StoreRef, lent: usize) -> Buffer {
    let [_, objects, _] = store.counts();
    let because = "two for each object in use";
    ("walk", lent, 2 * objects as usize, because)
}

/// A buffer of which too little is lent.
pub(super) fn short((name, lent, least, because): Buffer) -> Option<Fault> {
    let wanted = Wanted::AtLeast(least as u64);
    (lent < least).then(|| Fault::number(Place::Scratch(name), lent, wanted, because))
}
