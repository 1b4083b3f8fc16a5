//! Kinds of tables.

/// What a table is for. Its bytes alone do not tell: the lookup that it stands in does.
///
/// Splits and cut plans are those of one kind; for a host that has lookups of both, they are methods
/// here too.
///
/// ```
/// use splitter::{Edition, Kind, Refusal, Scratch, Store};
///
/// /// Splits a subtable of a GPOS lookup, if it is one that is split.
/// fn split_subtable(lookup_type: u16, store: &mut Store, table: u32) -> Result<Vec<u32>, Refusal> {
///     match Kind::of_lookup(lookup_type) {
///         Some(kind) => kind.split(store, table, Edition::Second, &mut Scratch::new()),
///         None => Ok(Vec::new()),
///     }
/// }
/// # assert_eq!(split_subtable(4, &mut Store::new(), 0), Err(Refusal::NoTable));
/// # assert_eq!(split_subtable(5, &mut Store::new(), 0), Ok(Vec::new()));
/// ```
#[derive(Clone, Copy, Debug, PartialEq, Eq, PartialOrd, Ord, Hash)]
pub enum Kind {
    /// PairPos: pairs of glyphs. Its items are pair sets in format 1, and rows in format 2.
    Pairs,
    /// MarkBasePos: marks on bases. Its items are mark classes.
    Marks,
}

impl Kind {
    /// All of them.
    pub const ALL: [Self; 2] = [Self::Pairs, Self::Marks];

    /// The type of the GPOS lookups whose subtables are of this kind.
    pub const fn lookup_type(self) -> u16 {
        match self {
            Self::Pairs => 2,
            Self::Marks => 4,
        }
    }

    /// The kind of the subtables of GPOS lookups of a type.
    pub fn of_lookup(lookup_type: u16) -> Option<Self> {
        Self::ALL
            .into_iter()
            .find(|kind| kind.lookup_type() == lookup_type)
    }
}
