//! Splitting a table, and entering the new ones in lookups.

use crate::{need::Need, split::split_growing, Edition, Kind, Refusal, Scratch, Store, StoreMut};

/// Splits a PairPos table, enters the new tables in each lookup of a list that names it, and gives the new
/// tables in order.
///
/// The list and its lookups are objects of the store, of OpenType's layout, whose offsets are links. The
/// table is split as [`split`](crate::split()) splits it. Then each lookup of type 2 of the list that names it
/// is written as a new object, in which the new tables stand directly behind each listing of the old one, and
/// every link to the old lookup, of either kind, leads to the new one. The old lookup's own order-only links
/// stay with it. With no new tables nothing changes. The store grows where it has no room; room that is then
/// left over stays.
///
/// Applied to two glyphs, by [`apply_lookup`](crate::apply_lookup), each lookup of the list says what it said
/// before, where all its subtables can be read and no other leads to the table.
///
/// ```
/// use splitter::{apply_lookup, split_in_lookups, Edition, Lookup, Refusal, Scratch, Store};
///
/// // A list of one lookup, which lists one table: glyphs 10 and 20, with 10,000 pairs each.
/// let mut store = Store::new();
/// let list = store.add_object(&[0, 1, 0, 0])?;
/// let lookup = store.add_object(&[0, 2, 0, 0, 0, 1, 0, 0])?;
/// let table = store.add_object(&[0, 1, 0, 0, 0, 4, 0, 0, 0, 2, 0, 0, 0, 0])?;
/// let coverage = store.add_object(&[0, 1, 0, 2, 0, 10, 0, 20])?;
/// for (parent, slot, child) in [(list, 2, lookup), (lookup, 6, table), (table, 2, coverage)] {
///     store.add_link(parent, slot, child)?;
/// }
/// for slot in [10, 12] {
///     let pairs = (0..10_000u16).flat_map(|second| [second, 100 + second]);
///     let words = [10_000].into_iter().chain(pairs);
///     let pair_set = store.add_object(&words.flat_map(u16::to_be_bytes).collect::<Vec<_>>())?;
///     store.add_link(table, slot, pair_set)?;
/// }
///
/// let before = apply_lookup(&store, lookup, 20, 70)?;
/// assert_eq!(before.unwrap().first.x_advance, 170);
///
/// let edition = Edition::Second;
/// let new_tables = split_in_lookups(&mut store, list, table, edition, &mut Scratch::new())?;
/// let new_lookup = store.view().child(list, 2).unwrap();
/// assert_eq!(Lookup::read(&store, new_lookup)?.slots, [Some(table), Some(new_tables[0])]);
/// assert_eq!(apply_lookup(&store, new_lookup, 20, 70)?, before);
/// # Ok::<(), Refusal>(())
/// ```
///
/// # Errors
///
/// The first [`Refusal`] that applies. Scratch is never short, and an owned store is always sound.
/// [`NoRoom`](Refusal::NoRoom) means that the store would go past its maxima. Nothing has changed.
pub fn split_in_lookups(
    store: &mut Store,
    list: u32,
    table: u32,
    edition: Edition,
    scratch: &mut Scratch,
) -> Result<Vec<u32>, Refusal> {
    let need = Need::in_lookups(store.view(), list, table);
    let split = |store: &mut Store, scratch: &mut Scratch, new_tables: &mut [u32]| {
        split_in_lookups_into(store, list, table, edition, scratch, new_tables)
    };
    split_growing(Kind::Pairs, store, table, edition, scratch, need, split)
}

/// Splits a PairPos table and enters the new tables in lookups, in a store that has what room it has. The
/// list of new tables, which is lent, takes them from its first entry on. Gives how many there are.
///
/// It does as [`split_in_lookups`] does.
///
/// # Errors
///
/// The first [`Refusal`] that applies; scratch is never short. [`NoRoom`](Refusal::NoRoom) means that data,
/// objects, links or the list of new tables are too short. Nothing has changed then.
pub fn split_in_lookups_into<'a>(
    store: impl Into<StoreMut<'a>>,
    list: u32,
    table: u32,
    edition: Edition,
    scratch: &mut Scratch,
    new_tables: &mut [u32],
) -> Result<usize, Refusal> {
    scratch.split_in_lookups(store.into(), list, table, edition, new_tables)
}
