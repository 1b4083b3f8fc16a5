//! Compacting a store.

use crate::{Refusal, Room, Scratch, Store, StoreMut};

/// What came of a compaction.
#[derive(Clone, Debug, PartialEq, Eq)]
pub struct Compacted {
    /// The new number of each root, in the order in which they were given.
    pub roots: Vec<u32>,
    /// What is no longer in use.
    pub freed: Room,
    /// How many bytes those kept objects have that start elsewhere in the data than before.
    pub moved: usize,
}

/// What a compaction freed, and what it moved for that.
#[derive(Clone, Copy, Debug, Default, PartialEq, Eq, Hash)]
pub struct Freed {
    /// What is no longer in use. It is room now, and zero.
    pub room: Room,
    /// How many bytes those kept objects have that start elsewhere in the data than before.
    pub moved: usize,
}

impl Store {
    /// Keeps some objects, the roots, and all that their offsets reach, and drops the rest.
    ///
    /// A split leaves old coverages, class definitions, arrays and lookups behind: after some of them a store
    /// is full of objects that nothing leads to. What is kept stays in its order and gets the lowest numbers,
    /// with no gap between; links lead where they led, and an order-only link stays where both its ends do.
    /// Every table that is kept says what it said, with devices and anchors under their new numbers. What was
    /// freed is [room](Self::room), for the next split.
    ///
    /// Other numbers than those of the roots are not handed back: a host that holds more of them lists more
    /// roots. A root may stand in the list more than once. With no root nothing is kept.
    ///
    /// ```
    /// use splitter::{read_pair, split, Edition, Refusal, Room, Scratch, Store};
    ///
    /// // An object that nothing needs, and a table of two pair sets of 10,000 records.
    /// let mut store = Store::new();
    /// store.add_object(&[0; 500])?;
    /// let table = store.add_object(&[0, 1, 0, 0, 0, 4, 0, 0, 0, 2, 0, 0, 0, 0])?;
    /// let coverage = store.add_object(&[0, 1, 0, 2, 0, 10, 0, 20])?;
    /// store.add_link(table, 2, coverage)?;
    /// for slot in [10, 12] {
    ///     let pairs = (0..10_000u16).flat_map(|second| [second, 100 + second]);
    ///     let words = [10_000].into_iter().chain(pairs);
    ///     let pair_set = store.add_object(&words.flat_map(u16::to_be_bytes).collect::<Vec<_>>())?;
    ///     store.add_link(table, slot, pair_set)?;
    /// }
    /// let new_tables = split(&mut store, table, Edition::Second, &mut Scratch::new())?;
    /// let before = read_pair(&store, new_tables[0], 20, 70)?;
    ///
    /// let compacted = store.compact(&[table, new_tables[0]])?;
    /// let [table, new_table] = compacted.roots[..] else { unreachable!() };
    /// assert_eq!([table, new_table], [0, 3]);
    /// // The first object is gone, the coverage that the table had before the split, and two bytes that
    /// // were cut off the table.
    /// assert_eq!(compacted.freed, Room { data: 500 + 8 + 2, objects: 2, links: 0 });
    /// assert_eq!(compacted.moved, store.view().data().len());
    /// assert_eq!(read_pair(&store, new_table, 20, 70)?, before);
    ///
    /// assert_eq!(store.compact(&[99]), Err(Refusal::NoTable));
    /// # Ok::<(), Refusal>(())
    /// ```
    ///
    /// # Errors
    ///
    /// [`NoTable`](Refusal::NoTable) where a root is not in use: nothing has changed then, and
    /// [`explain_compaction`](crate::explain_compaction) says which it is.
    pub fn compact(&mut self, roots: &[u32]) -> Result<Compacted, Refusal> {
        let mut roots = roots.to_vec();
        let Freed { room, moved } = compact(self, &mut roots, &mut Scratch::new())?;
        Ok(Compacted {
            roots,
            freed: room,
            moved,
        })
    }
}

/// Compacts a store of any kind, as [`Store::compact`] does, and writes the new numbers of the roots over the
/// old ones. It allocates nothing but what the scratch lacks.
///
/// ```
/// use splitter::{compact, Refusal, Scratch, StoreMut};
///
/// // Three objects in the host's own buffers. The last leads to the first, and nothing to the second.
/// let mut data = *b"aabbbcc..";
/// let mut objects = [0, 2, 2, 5, 5, 7];
/// let mut links = [2, 0, 2, 0, 0];
/// let mut counts = [7, 3, 1];
/// let mut store = StoreMut::new(&mut data, &mut objects, &mut links, &mut counts);
///
/// let mut roots = [2];
/// let freed = compact(&mut store, &mut roots, &mut Scratch::new())?;
/// assert_eq!((roots, freed.room.data, freed.moved), ([1], 3, 2));
/// assert_eq!(&data, b"aacc\0\0\0..");
/// assert_eq!(links, [1, 0, 2, 0, 0]);
/// # Ok::<(), Refusal>(())
/// ```
///
/// # Errors
///
/// [`Unsound`](Refusal::Unsound), and [`NoTable`](Refusal::NoTable) where a root is not in use; scratch is
/// never short. Nothing has changed then.
pub fn compact<'a>(
    store: impl Into<StoreMut<'a>>,
    roots: &mut [u32],
    scratch: &mut Scratch,
) -> Result<Freed, Refusal> {
    scratch.compact(store.into(), roots)
}
