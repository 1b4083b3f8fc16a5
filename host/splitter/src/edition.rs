//! Editions of the cutting rule.

/// An edition of the cutting rule: how a split finds the items at which it cuts.
///
/// Whatever the edition, the tables of a split say what the old table said, and splitting the kept one
/// again under the same edition changes nothing.
///
/// | | [`First`](Self::First) | [`Second`](Self::Second) |
/// |---|---|---|
/// | the item at a cut | costs what was measured before the cut: what it shares with items before is left out | is measured again with nothing seen, and what it reaches counts as seen after |
/// | an empty pair set slot | costs nothing, and is no place for a cut | costs its 2 bytes and its 2 of coverage, and is tested for a cut as any other |
/// | item 0 | may be cut off, if it is too large by itself | is never cut off |
///
/// ```
/// use splitter::Edition;
///
/// assert_eq!(Edition::Second.number(), 2);
/// assert_eq!(Edition::from_number(3), None);
/// ```
#[derive(Clone, Copy, Debug, PartialEq, Eq, PartialOrd, Ord, Hash)]
pub enum Edition {
    /// The cuts of the crate skera 0.6.0: for fonts that are fielded, and have to stay as they are.
    First = 1,
    /// The cuts that keep to the limit: each table of two or more items that a split leaves is within it, by
    /// the count of [`Fit`](crate::Fit), and splitting any of them again changes nothing. In format 1 of
    /// pairs, and of marks on bases, no other choice of items has fewer cuts and keeps to it.
    Second = 2,
}

impl Edition {
    /// All of them, in order.
    pub const ALL: [Self; 2] = [Self::First, Self::Second];

    /// The number by which the functions of [`raw`](crate::raw) take it.
    pub const fn number(self) -> u32 {
        self as u32
    }

    /// The edition that has this number.
    pub fn from_number(number: u32) -> Option<Self> {
        Self::ALL
            .into_iter()
            .find(|edition| edition.number() == number)
    }
}
