//! Where the crate's text keeps old offsets in the arrays of a kept MarkBasePos table.

use crate::{
    edit,
    model::{
        marks::{base_slot, mark_slot, BASE_ARRAY_POS, MARK_ARRAY_POS},
        numbers::u16_at,
    },
};
use oracle::Store;

/// Where a slot of an array is.
type Slot = fn(usize) -> usize;

/// A store after a split, with all bytes in the kept table's arrays as the crate's text leaves them;
/// nothing where the kept table has no arrays.
///
/// It shortens a copy of each array and sets counts and classes. So the offset of a slot is the one
/// that stood at that place before, whatever is linked there now.
pub fn as_the_text(before: &Store, after: &Store, table: u32) -> Option<Store> {
    let mut left = after.clone();
    let arrays: [(usize, Slot); 2] = [(MARK_ARRAY_POS, mark_slot), (BASE_ARRAY_POS, base_slot)];
    for (position, slot) in arrays {
        let array = |store| edit::child_at(store, table, position as u32);
        let old = edit::bytes(before, array(before)?);
        let kept = array(after)?;
        let len = edit::bytes(after, kept).len();
        let slots = (0..).map(slot).take_while(|at| at + 2 <= len);
        for (at, offset) in slots.map_while(|at| Some((at, u16_at(old, at)?))) {
            edit::set_word(&mut left, kept, at, offset);
        }
    }
    Some(left)
}
