//! Lookups of a store, and what they say of two glyphs.

use crate::{read_pair, table::word, Kind, PairValues, Refusal, StoreRef};
use std::collections::HashSet;

/// The bit of a flag that says that a mark filtering set stands behind the offsets.
pub(crate) const FILTERS: u16 = 0x0010;

/// Where the offsets of a lookup list start.
pub(crate) const LIST_HEADER: usize = 2;

/// Where the offsets of a lookup start.
pub(crate) const HEADER: usize = 6;

/// A lookup: subtables in an order. It is an object of OpenType's layout, whose offsets are links.
#[derive(Clone, Debug, PartialEq, Eq)]
pub struct Lookup {
    /// Its type, which says what its subtables are: see [`Kind::of_lookup`].
    pub lookup_type: u16,
    /// Its flag.
    pub flag: u16,
    /// What each of its slots leads to. A slot may be empty.
    pub slots: Vec<Option<u32>>,
}

impl Lookup {
    /// Reads a lookup of a store.
    ///
    /// # Errors
    ///
    /// [`Unsound`](Refusal::Unsound), [`NoTable`](Refusal::NoTable) where its number is not in use, and
    /// [`BadList`](Refusal::BadList) where the object is no lookup: it has not exactly the length that its
    /// count and its flag ask for, or has a link at no slot.
    pub fn read<'a>(store: impl Into<StoreRef<'a>>, lookup: u32) -> Result<Self, Refusal> {
        let store = store.into();
        if !store.is_sound() {
            return Err(Refusal::Unsound);
        }
        let bytes = store.object(lookup).ok_or(Refusal::NoTable)?;
        Self::of_bytes(store, lookup, bytes).ok_or(Refusal::BadList)
    }

    fn of_bytes(store: StoreRef, lookup: u32, bytes: &[u8]) -> Option<Self> {
        let words = bytes.first_chunk::<HEADER>()?.as_chunks().0;
        let [lookup_type, flag, count] = [0, 1, 2].map(|word| u16::from_be_bytes(words[word]));
        let filter_set = if flag & FILTERS == 0 { 0 } else { 2 };
        if bytes.len() != HEADER + 2 * usize::from(count) + filter_set {
            return None;
        }
        let mut slots = vec![None; count.into()];
        for link in store.offsets_of(lookup) {
            let past_header = (link.position as usize).checked_sub(HEADER)?;
            let slot = slots.get_mut(past_header / 2)?;
            *slot = (past_header % 2 == 0).then_some(Some(link.child))?;
        }
        Some(Self {
            lookup_type,
            flag,
            slots,
        })
    }

    /// Its subtables in order: what its slots lead to.
    pub fn subtables(&self) -> impl Iterator<Item = u32> + '_ {
        self.slots.iter().copied().flatten()
    }
}

/// Applies a lookup to two glyphs, the first before the second: the first of its subtables that has the
/// pair decides.
///
/// A subtable that [`read_pair`] refuses, or that has another format, has no pair. A lookup of another type
/// than 2 has none.
///
/// ```
/// use splitter::{apply_lookup, Refusal, Store};
///
/// // A lookup of two subtables. Both are of glyph 10, and each has one pair set of X advances.
/// let mut store = Store::new();
/// let lookup = store.add_object(&[0, 2, 0, 0, 0, 2, 0, 0, 0, 0])?;
/// let coverage = store.add_object(&[0, 1, 0, 1, 0, 10])?;
/// for (slot, pair_set) in [(6, [0, 1, 0, 70, 0, 5]), (8, [0, 1, 0, 71, 0, 6])] {
///     let table = store.add_object(&[0, 1, 0, 0, 0, 4, 0, 0, 0, 1, 0, 0])?;
///     let pair_set = store.add_object(&pair_set)?;
///     store.add_link(lookup, slot, table)?;
///     store.add_link(table, 2, coverage)?;
///     store.add_link(table, 10, pair_set)?;
/// }
///
/// let advance = |second| {
///     let pair = apply_lookup(&store, lookup, 10, second)?;
///     Ok(pair.map(|pair| pair.first.x_advance))
/// };
/// assert_eq!([advance(70)?, advance(71)?, advance(72)?], [Some(5), Some(6), None]);
/// # Ok::<(), Refusal>(())
/// ```
///
/// # Errors
///
/// Those of [`Lookup::read`].
pub fn apply_lookup<'a>(
    store: impl Into<StoreRef<'a>>,
    lookup: u32,
    first: u16,
    second: u16,
) -> Result<Option<PairValues>, Refusal> {
    let store = store.into();
    let lookup = Lookup::read(store, lookup)?;
    if lookup.lookup_type != Kind::Pairs.lookup_type() {
        return Ok(None);
    }
    let mut subtables = lookup.subtables();
    Ok(subtables.find_map(|table| read_pair(store, table, first, second).ok()?))
}

/// What a list leads to, in its order, each once.
pub(crate) fn lookups_of(store: StoreRef, list: u32) -> Vec<u32> {
    let mut seen = HashSet::new();
    let lookups = store.offsets_of(list).map(|link| link.child);
    lookups.filter(|&lookup| seen.insert(lookup)).collect()
}

/// A lookup for pairs that names a table, and in which new tables are entered.
pub(crate) struct Naming {
    /// Its number.
    pub lookup: u32,
    /// How many bytes it has.
    pub bytes: usize,
    /// How many links.
    pub links: usize,
    /// How often it names the table.
    pub listings: usize,
}

impl Naming {
    /// Those of a list, in its order, each once.
    pub fn all(store: StoreRef, list: u32, table: u32) -> Vec<Self> {
        let lookups = lookups_of(store, list).into_iter();
        let naming = lookups.filter_map(|lookup| {
            let bytes = store.object(lookup)?;
            let (links, listings) = (store.offsets_of(lookup), store.offsets_of(lookup));
            let listings = listings.filter(|link| link.child == table).count();
            let of_pairs = word(bytes, 0) == usize::from(Kind::Pairs.lookup_type());
            (of_pairs && listings > 0).then_some(Self {
                lookup,
                bytes: bytes.len(),
                links: links.len(),
                listings,
            })
        });
        naming.collect()
    }
}
