//! The exported functions as they are, over slices.
//!
//! They are safe to call with anything: each is proved to end, to stay within what it is lent, and
//! to answer any contents with a number, 0 or a [refusal's](crate::Refusal::number).
//!
//! A store is `data`; `objects`, flat rows of head and tail; `links`, flat rows of parent, position,
//! width, child and kind; and `counts`, how many data bytes, object rows and link rows are in use. Part of
//! a row at the end of a slice is no row.
//!
//! A link of kind 0 is an offset: it is 2 wide and lies within its parent. One of kind 1 only says in which
//! order parent and child are placed: its position and its width are 0. There is no other kind. Rows strictly
//! ascend by parent, kind, position and child, and no parent has two offsets at one position. Where below a
//! link is followed, asked, counted or copied it is an offset. Order-only links stay as they are, those of a
//! split table with the kept one.
//!
//! Scratch is `walk`, two numbers for each object in use; `glyph_set`, 8,192 bytes; `glyphs` and
//! `classes`, one entry for each covered glyph, of a mark-to-base table each glyph of its mark
//! coverage; and `cuts`, one entry for each pair set, row or mark class. It may be longer and hold
//! anything, and is zero after every call, all of it. Of these [`compact`] takes `walk` alone.
//!
//! Splits and cut plans take the number of an [edition](crate::Edition) of the cutting rule, 1 or 2. It is
//! asked before all else: of another number the answer is 12, whatever else there is to refuse.

#![allow(unsafe_code)]

mod compact;
mod shapes;

pub use compact::compact;

use shapes::{plan_function, read_function, split_function};

/// The version of these functions' interface, as the header `splitter.h` has it too: it grows where the
/// parameters of one of them change, or the numbers of a row.
pub const INTERFACE: u32 = 3;

split_function! {
    /// Splits a PairPos table at the cut places of an edition of the rule.
    ///
    /// The table keeps the items before the first cut. Each cut starts a new table: `new_tables` takes
    /// their numbers in order, from its first entry on, and `new_count` becomes how many there are. With
    /// no cut, with a format other than 1 and 2, and where the answer is a refusal, `new_count`
    /// becomes 0 and store and list stay as they were.
    ///
    /// What `data`, `objects` and `links` have beyond the counts is room. Of K cuts, format 1 needs
    /// 2K + 1 objects and K links, format 2 needs 3K + 2 objects and 3K links, both K entries of the list
    /// and the bytes of all new objects.
    split_pairpos
}

split_function! {
    /// Splits a MarkBasePos table at the cut places of an edition of the rule, between mark classes.
    ///
    /// It does as [`split_pairpos`] does, with mark classes for items; a format other than 1 is nothing to
    /// split. The kept table's mark coverage and its two arrays are new objects, as those of new tables
    /// are, so the old ones keep their bytes and links.
    ///
    /// Of K cuts it needs 4K + 3 objects, 4K links and as many as the mark array and the base array have
    /// together, K entries of the list and the bytes of all new objects.
    split_markbasepos
}

split_function! {
    /// Splits a PairPos table, and enters the new tables in each lookup of a list that names it.
    ///
    /// `list` is the number of a GPOS lookup list. It splits as [`split_pairpos`] does; then each lookup of
    /// type 2 of the list that names the table becomes a new object, in which the new tables follow each
    /// listing of the old one, and every link of either kind to the old lookup leads to the new one. With no
    /// cut nothing changes. It refuses by 9 and 10 too.
    ///
    /// What it needs is what the split needs, and for each such lookup an object, its bytes and its links,
    /// with two bytes and a link more for each new table at each listing.
    split_in_lookups, list
}

plan_function! {
    /// Says where a PairPos table would be cut, and changes nothing of the store.
    ///
    /// `places` takes the cut places in order, from its first entry on, and `place_count` becomes how
    /// many there are. Where the answer is a refusal `place_count` becomes 0 and `places` stays as it was: 12,
    /// 1 to 7 and 11 are those of a split, and 8 means that `places` is too short.
    cut_plan
}

plan_function! {
    /// Says where a MarkBasePos table would be cut, and changes nothing of the store.
    ///
    /// It does as [`cut_plan`] does; its places are mark classes.
    cut_plan_markbasepos
}

read_function! {
    /// Reads what a PairPos table says of two glyphs, the first before the second.
    ///
    /// `values` becomes eight numbers for the first glyph and eight for the second: X placement,
    /// Y placement, X advance, Y advance, then their four devices, each as the number of the linked
    /// object plus one, or 0. `found` becomes 1 where there is a pair. Without one, and where the answer
    /// is a refusal (1 to 5 and 11), `found` becomes 0 and all sixteen numbers 0. Every linked pair set of the
    /// table is looked at.
    read_pair, first, second, values: [i32; 16]
}

read_function! {
    /// Reads by which anchors a MarkBasePos table attaches a mark glyph to a base glyph.
    ///
    /// `anchors` becomes the anchor object of the mark and that of the base, each as its number plus one.
    /// `found` becomes 1 where there is an attachment. Without one, and where the answer is a refusal
    /// (1 to 5), `found` becomes 0 and both numbers 0.
    read_mark, mark, base, anchors: [u32; 2]
}
