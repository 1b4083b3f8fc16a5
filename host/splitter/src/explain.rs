//! Why a call is refused: what is at fault, where, what stands there, and what should.
//!
//! The proved functions decide, and give a number. This looks for the reason of that number, in plain
//! Rust and by the same documents; tests hold it to the proved functions.

mod compaction;
mod fault;
mod lent;
mod links;
mod lookups;
mod parts;
mod room;
mod sets;
mod soundness;
mod table;

pub use fault::{Fault, LinkRow, Part, Place, Wanted};
pub use lent::{Call, Lent};

use crate::{table::TableRef, Edition, Kind, Refusal, Scratch, StoreRef};
use std::{
    fmt::{self, Display, Formatter},
    ops::Deref,
};

/// The answer to a call, and what is at fault where it is refused.
///
/// ```
/// use splitter::{explain, Refusal, Store};
///
/// let mut store = Store::new();
/// let table = store.add_object(&[0, 1, 0, 0, 0, 4, 0, 0, 0, 0])?;
/// let coverage = store.add_object(&[0, 7, 0, 0])?;
/// store.add_link(table, 2, coverage)?;
///
/// let explanation = explain(&store, table);
/// assert_eq!(explanation.refusal(), Some(Refusal::BadParts));
/// let sentence = "coverage, object 1: its format, at byte 0, is 7; it must be 1 or 2";
/// assert_eq!(explanation.to_string(), sentence);
/// # Ok::<(), Refusal>(())
/// ```
#[derive(Clone, Debug, Default, PartialEq, Eq)]
pub struct Explanation(Option<(Refusal, Fault)>);

impl Explanation {
    /// The answer's number: that of the refusal, or 0.
    pub fn number(&self) -> u32 {
        self.refusal().map_or(0, Refusal::number)
    }

    /// By what the call is refused.
    pub fn refusal(&self) -> Option<Refusal> {
        self.0.as_ref().map(|(refusal, _)| *refusal)
    }

    /// What is at fault. There may be more of it.
    pub fn fault(&self) -> Option<&Fault> {
        self.0.as_ref().map(|(_, fault)| fault)
    }
}

impl Display for Explanation {
    fn fmt(&self, f: &mut Formatter) -> fmt::Result {
        match self.fault() {
            Some(fault) => fault.fmt(f),
            None => f.write_str("nothing is at fault"),
        }
    }
}

/// Explains what a cut plan of a PairPos table answers.
///
/// It is [`Kind::explain`] of [`Kind::Pairs`].
pub fn explain<'a>(store: impl Into<StoreRef<'a>>, table: u32) -> Explanation {
    Kind::Pairs.explain(store, table)
}

/// Explains what a cut plan of a MarkBasePos table answers.
///
/// It is [`Kind::explain`] of [`Kind::Marks`].
pub fn explain_marks<'a>(store: impl Into<StoreRef<'a>>, table: u32) -> Explanation {
    Kind::Marks.explain(store, table)
}

/// Explains what [`split_in_lookups`](crate::split_in_lookups()) answers, but for room.
///
/// ```
/// use splitter::{explain_in_lookups, Edition, Refusal, Store};
///
/// // A lookup for marks that lists a table for pairs.
/// let mut store = Store::new();
/// let list = store.add_object(&[0, 1, 0, 0])?;
/// let lookup = store.add_object(&[0, 4, 0, 0, 0, 1, 0, 0])?;
/// let table = store.add_object(&[0, 1, 0, 0, 0, 4, 0, 0, 0, 0])?;
/// store.add_link(list, 2, lookup)?;
/// store.add_link(lookup, 6, table)?;
///
/// let explanation = explain_in_lookups(&store, list, table, Edition::Second);
/// assert_eq!(explanation.refusal(), Some(Refusal::BadList));
/// let sentence = "lookup, object 1: its type, at byte 0, is 4; it must be 2, to list a table for pairs";
/// assert_eq!(explanation.to_string(), sentence);
/// # Ok::<(), Refusal>(())
/// ```
pub fn explain_in_lookups<'a>(
    store: impl Into<StoreRef<'a>>,
    list: u32,
    table: u32,
    edition: Edition,
) -> Explanation {
    let call = Call::InLookups {
        list,
        edition: edition.number(),
        lent: Lent::ENOUGH,
    };
    let Explanation(found) = Kind::Pairs.explain_call(call, store, table);
    Explanation(found.filter(|(refusal, _)| *refusal != Refusal::NoRoom))
}

/// Explains what [`Store::compact`](crate::Store::compact) answers, and [`compact`](crate::compact()).
///
/// ```
/// use splitter::{explain_compaction, Refusal, Store};
///
/// let mut store = Store::new();
/// let table = store.add_object(&[0, 3])?;
///
/// let explanation = explain_compaction(&store, &[table, 7]);
/// assert_eq!(explanation.refusal(), Some(Refusal::NoTable));
/// let sentence = "entry 1 of the list of roots is 7; it must be below 1, how many objects are in use";
/// assert_eq!(explanation.to_string(), sentence);
/// # Ok::<(), Refusal>(())
/// ```
pub fn explain_compaction<'a>(store: impl Into<StoreRef<'a>>, roots: &[u32]) -> Explanation {
    explain_compaction_lent(store, roots, usize::MAX)
}

/// Explains what a compaction answers that is lent a walk of so many numbers.
pub fn explain_compaction_lent<'a>(
    store: impl Into<StoreRef<'a>>,
    roots: &[u32],
    walk: usize,
) -> Explanation {
    compaction::explain(store.into(), roots, walk)
}

impl Kind {
    /// Explains what [`Kind::cut_plan`] answers for a table, in either edition. A split of it is refused
    /// alike, but for room.
    pub fn explain<'a>(self, store: impl Into<StoreRef<'a>>, table: u32) -> Explanation {
        let call = Call::Plan {
            edition: Edition::First.number(),
            lent: Lent::ENOUGH,
        };
        self.explain_call(call, store, table)
    }

    /// Explains what a call answers that is lent these buffers. A call over lookups is one of
    /// [`Kind::Pairs`], whatever the kind.
    ///
    /// ```
    /// use splitter::{explain::{Call, Lent}, Kind, Refusal, Store};
    ///
    /// let call = Call::Plan { edition: 3, lent: Lent::ENOUGH };
    /// let explanation = Kind::Pairs.explain_call(call, &Store::new(), 0);
    /// assert_eq!(explanation.refusal(), Some(Refusal::BadEdition));
    /// assert_eq!(explanation.to_string(), "the edition is 3; it must be 1 or 2");
    /// ```
    pub fn explain_call<'a>(
        self,
        call: Call,
        store: impl Into<StoreRef<'a>>,
        table: u32,
    ) -> Explanation {
        let kind = match call {
            Call::InLookups { .. } => Self::Pairs,
            Call::Reading | Call::Plan { .. } | Call::Split { .. } => self,
        };
        let of = TableRef {
            kind,
            store: store.into(),
            table,
        };
        Asked { call, of }.explain()
    }
}

/// A call, and what it is asked of.
#[derive(Clone, Copy)]
struct Asked<'a> {
    call: Call,
    of: TableRef<'a>,
}

impl<'a> Deref for Asked<'a> {
    type Target = TableRef<'a>;

    fn deref(&self) -> &TableRef<'a> {
        &self.of
    }
}

/// A check: by what it refuses, and what it finds.
type Check = (Refusal, fn(&Asked) -> Option<Fault>);

/// The checks up to the table's format, in order.
const BEFORE_FORMAT: &[Check] = &[
    (Refusal::BadEdition, lent::bad_edition),
    (Refusal::Unsound, |asked| soundness::fault(asked.store)),
    (Refusal::NoTable, table::not_in_use),
    (Refusal::NoTable, lookups::list_not_in_use),
    (Refusal::BadList, lookups::bad_list),
    (Refusal::BadTable, table::without_format),
];

/// The checks of a table whose format is split, in order: first, whether it can be read.
const TO_READ: &[Check] = &[
    (Refusal::BadTable, table::length),
    (Refusal::BadParts, parts::fault),
    (Refusal::FewGlyphs, parts::few_glyphs),
];

/// Then, whether it can be cut. A later answer is a line in its place, and what finds its fault.
const TO_CUT: &[Check] = &[
    (Refusal::ShortScratch, lent::short_scratch),
    (Refusal::BadLinks, links::at_no_slot),
    (Refusal::BadLinks, links::way_back),
    (Refusal::UnsortedSets, sets::unsorted),
    (Refusal::ManySubtables, lookups::many_subtables),
    (Refusal::NoRoom, room::short),
];

/// Whether a table has a format that is split, and it and its parts can be read.
pub(crate) fn is_readable(of: TableRef) -> bool {
    let call = Call::Reading;
    of.is_split() && Asked { call, of }.first(TO_READ).is_none()
}

impl Asked<'_> {
    fn explain(&self) -> Explanation {
        let before = self.first(BEFORE_FORMAT);
        Explanation(match before {
            None if self.is_split() => self.first(TO_READ).or_else(|| self.first(TO_CUT)),
            before => before,
        })
    }

    /// Where the table is cut; nothing where the call has no edition or is refused.
    fn cuts(&self) -> Option<Vec<usize>> {
        let edition = Edition::from_number(self.call.edition()?)?;
        let cuts = self
            .kind
            .cut_plan(self.store, self.table, edition, &mut Scratch::new());
        Some(cuts.ok()?.into_iter().map(usize::from).collect())
    }

    /// The first check that finds something, of those that the call makes.
    fn first(&self, checks: &[Check]) -> Option<(Refusal, Fault)> {
        let asked = checks.iter().filter(|(by, _)| self.call.refuses(*by));
        asked
            .map(|(by, check)| Some((*by, check(self)?)))
            .find_map(|found| found)
    }
}
