//! Splitting a table.

use crate::{need::Need, Edition, Kind, Refusal, Scratch, Store, StoreMut};

impl Kind {
    /// Splits a table of this kind at the cuts of an edition of the rule, and gives the new tables in
    /// order.
    ///
    /// The table keeps its number, its first items and its order-only links; new objects have none of these.
    /// There are no new tables, and nothing changes, where the edition finds no cut, or the table has a format
    /// that is not split. The store grows where it has no room; room that is then left over stays.
    ///
    /// # Errors
    ///
    /// The first [`Refusal`] that applies. Scratch is never short, and an owned store is always sound.
    /// [`NoRoom`](Refusal::NoRoom) means that the store would go past its maxima. Nothing has changed.
    pub fn split(
        self,
        store: &mut Store,
        table: u32,
        edition: Edition,
        scratch: &mut Scratch,
    ) -> Result<Vec<u32>, Refusal> {
        let need = Need::of(self, store.view(), table);
        let split = |store: &mut Store, scratch: &mut Scratch, new_tables: &mut [u32]| {
            self.split_into(store, table, edition, scratch, new_tables)
        };
        split_growing(self, store, table, edition, scratch, need, split)
    }

    /// Splits a table of this kind in a store that has what room it has. The list, which is lent, takes
    /// the new tables from its first entry on. Gives how many there are.
    ///
    /// # Errors
    ///
    /// The first [`Refusal`] that applies; scratch is never short. [`NoRoom`](Refusal::NoRoom) means
    /// that data, objects, links or list are too short. Nothing has changed then.
    pub fn split_into<'a>(
        self,
        store: impl Into<StoreMut<'a>>,
        table: u32,
        edition: Edition,
        scratch: &mut Scratch,
        new_tables: &mut [u32],
    ) -> Result<usize, Refusal> {
        scratch.split(self, store.into(), table, edition, new_tables)
    }
}

/// Splits a table in a store that grows where it has no room.
pub(crate) fn split_growing(
    kind: Kind,
    store: &mut Store,
    table: u32,
    edition: Edition,
    scratch: &mut Scratch,
    need: Need,
    split: impl Fn(&mut Store, &mut Scratch, &mut [u32]) -> Result<usize, Refusal>,
) -> Result<Vec<u32>, Refusal> {
    let mut new_tables = vec![0; need.items];
    let count = match split(store, scratch, &mut new_tables) {
        Err(Refusal::NoRoom) => {
            let cuts = kind.cut_plan(&*store, table, edition, scratch)?.len();
            store.with_room(need.room(cuts), |store| {
                split(store, scratch, &mut new_tables)
            })?
        }
        answer => answer?,
    };
    new_tables.truncate(count);
    new_tables.shrink_to_fit();
    Ok(new_tables)
}

/// Splits a PairPos table between pair sets or rows, and gives the new tables in order.
///
/// It is [`Kind::split`] of [`Kind::Pairs`]. Formats other than 1 and 2 are not split.
///
/// # Errors
///
/// Those of [`Kind::split`].
pub fn split(
    store: &mut Store,
    table: u32,
    edition: Edition,
    scratch: &mut Scratch,
) -> Result<Vec<u32>, Refusal> {
    Kind::Pairs.split(store, table, edition, scratch)
}

/// Splits a PairPos table in a store that has what room it has, and gives how many new tables there are.
///
/// It is [`Kind::split_into`] of [`Kind::Pairs`].
///
/// # Errors
///
/// Those of [`Kind::split_into`].
pub fn split_into<'a>(
    store: impl Into<StoreMut<'a>>,
    table: u32,
    edition: Edition,
    scratch: &mut Scratch,
    new_tables: &mut [u32],
) -> Result<usize, Refusal> {
    Kind::Pairs.split_into(store, table, edition, scratch, new_tables)
}

/// Splits a MarkBasePos table between mark classes, and gives the new tables in order.
///
/// It is [`Kind::split`] of [`Kind::Marks`]. Formats other than 1 are not split. The kept table gets a mark
/// coverage, a mark array and a base array of its own, as each new table does; all share the base
/// coverage and the anchors.
///
/// ```
/// use splitter::{
///     cut_plan_marks, read_mark, split_marks, Attachment, Edition, Refusal, Scratch, Store,
/// };
///
/// // Marks 10, 20 and 30 of classes 1, 0 and 1, on bases 60 and 61.
/// let mut store = Store::new();
/// let table = store.add_object(&[0, 1, 0, 0, 0, 0, 0, 2, 0, 0, 0, 0])?;
/// let mark_coverage = store.add_object(&[0, 1, 0, 3, 0, 10, 0, 20, 0, 30])?;
/// let base_coverage = store.add_object(&[0, 1, 0, 2, 0, 60, 0, 61])?;
/// let mark_array = store.add_object(&[0, 3, 0, 1, 0, 0, 0, 0, 0, 0, 0, 1, 0, 0])?;
/// let base_array = store.add_object(&[0, 2, 0, 0, 0, 0, 0, 0, 0, 0])?;
/// for (slot, part) in [(2, mark_coverage), (4, base_coverage), (8, mark_array), (10, base_array)] {
///     store.add_link(table, slot, part)?;
/// }
/// // All marks have one anchor. Both classes have one on base 60, which is far too large.
/// let anchor = store.add_object(&[0, 1, 0, 0, 0, 0])?;
/// for slot in [4, 8, 12] {
///     store.add_link(mark_array, slot, anchor)?;
/// }
/// for slot in [2, 4] {
///     let large = store.add_object(&[0; 40_000])?;
///     store.add_link(base_array, slot, large)?;
/// }
///
/// let (edition, mut scratch) = (Edition::Second, Scratch::new());
/// assert_eq!(cut_plan_marks(&store, table, edition, &mut scratch)?, [1]);
/// let before = read_mark(&store, table, 30, 60)?;
/// assert_eq!(before.unwrap(), Attachment { mark_anchor: anchor, base_anchor: anchor + 2 });
///
/// let new_tables = split_marks(&mut store, table, edition, &mut scratch)?;
/// assert_eq!(read_mark(&store, table, 30, 60)?, None);
/// assert_eq!(read_mark(&store, new_tables[0], 30, 60)?, before);
/// # Ok::<(), Refusal>(())
/// ```
///
/// # Errors
///
/// Those of [`Kind::split`].
pub fn split_marks(
    store: &mut Store,
    table: u32,
    edition: Edition,
    scratch: &mut Scratch,
) -> Result<Vec<u32>, Refusal> {
    Kind::Marks.split(store, table, edition, scratch)
}

/// Splits a MarkBasePos table in a store that has what room it has, and gives how many new tables there
/// are.
///
/// It is [`Kind::split_into`] of [`Kind::Marks`].
///
/// # Errors
///
/// Those of [`Kind::split_into`].
pub fn split_marks_into<'a>(
    store: impl Into<StoreMut<'a>>,
    table: u32,
    edition: Edition,
    scratch: &mut Scratch,
    new_tables: &mut [u32],
) -> Result<usize, Refusal> {
    Kind::Marks.split_into(store, table, edition, scratch, new_tables)
}
