//! The proved splitter of PairPos and MarkBasePos tables, for hosts in Rust.
//!
//! A table that is too large is cut into several that fit: for which the rule counts at most 65,535
//! bytes, of the table, all that its items lead to, each object once, and its coverage and class
//! definitions, of which in format 2 of pairs the largest is left out. It is a count and no layout, and
//! [`Fit`] makes it. An item that is too large by itself stays so.
//!
//! The rule has two [editions](Edition), and every call that cuts is told which one. [`Edition::First`] cuts
//! as the crate skera 0.6.0 does, for fonts that are fielded: what the item at a cut shares with those before
//! it, and an empty slot, it does not count. [`Edition::Second`] counts both, and each table of two or more
//! items that it leaves is within the limit: new hosts want this one.
//!
//! A font's objects and the links between them stand in a [`Store`], or in buffers of the host's own
//! as a [`StoreRef`] or [`StoreMut`]. Every call answers any input; where it cannot do what it is
//! asked it gives a [`Refusal`], and has changed nothing. What is done is done by functions that are
//! proved, in Rattle, to do exactly what is documented: [`raw`] has them as they are exported, and
//! the rest of this crate only lends them buffers and puts names on their numbers.
//!
//! A link is an offset, or only says in which order two objects are placed. What is read, measured and cut
//! goes by offsets alone. [Order-only](LinkKind::OrderOnly) links stay where they are, those of a table that
//! is split with the kept one.
//!
//! | to | of pairs | of marks on bases |
//! |---|---|---|
//! | split a table that is too large | [`split()`] | [`split_marks`] |
//! | the same, with a list of the host's own | [`split_into`] | [`split_marks_into`] |
//! | see where it would be cut | [`cut_plan`] | [`cut_plan_marks`] |
//! | the same, with a list of the host's own | [`cut_plan_into`] | [`cut_plan_marks_into`] |
//! | read what a table says of two glyphs | [`read_pair`] | [`read_mark`] |
//! | split a table, and enter the new ones in the lookups that list it | [`split_in_lookups`] | |
//! | the same, with a list of the host's own | [`split_in_lookups_into`] | |
//!
//! The first four are methods of [`Kind`] too, for a host that has tables of both kinds.
//!
//! | to | see |
//! |---|---|
//! | drop what nothing needs any more, and have the room for the next split | [`Store::compact`], [`compact()`] |
//! | know why a call is refused: what is at fault, where, and what should be there | [`explain()`], [`explain_in_lookups`], [`explain_compaction`] |
//! | know whether a table is within the limit, or those that a split would leave | [`Kind::fit`], [`Kind::fits_at`] |
//! | split tables of a graph of the host's own | [`split_graph`] |
//! | read what a lookup says of two glyphs, by its subtables in order | [`apply_lookup`] |
//! | keep a store in a file, for the command `splitter` | [`store_file`] |
//! | take tables out of a font | [`Store::from_font`], [`font`] |
//! | know which kit proved what is linked | [`provenance`] |
//!
//! # What is left to the host
//!
//! - The lookup must list the new tables, directly behind the old one and in order: [`split_in_lookups`]
//!   sees to that, of pair tables in lookups that are objects of the store too.
//! - In format 2 of pairs the largest of the coverage and the two class definitions is packed last. In
//!   order of object numbers a table can overflow: of 400 rows of 101 records with a class definition 2
//!   of 3,006 bytes, the kept table's greatest offset is 67,732 by number and 65,482 in link order.
//! - Tables that each fit may together be too far from their lookup, and usually want extension lookups.
//! - What they share may have to be there more than once.
//! - The old coverage, class definition 1 or arrays stay, and may be left with nothing that leads to them.
//!   Order-only links to them still lead there, and their own stay with them. [`Store::compact`] drops them.
//!
//! ```
//! use splitter::{cut_plan, read_pair, split, Edition, Refusal, Scratch, Store};
//!
//! // Format 1, glyphs 10, 20 and 30, and a pair set of 7,500 records for each: more than 65,535 bytes.
//! let mut store = Store::new();
//! let table = store.add_object(&[0, 1, 0, 0, 0, 4, 0, 0, 0, 3, 0, 0, 0, 0, 0, 0])?;
//! let coverage = store.add_object(&[0, 1, 0, 3, 0, 10, 0, 20, 0, 30])?;
//! store.add_link(table, 2, coverage)?;
//! for slot in [10, 12, 14] {
//!     // In front of any of 7,500 glyphs, which ascend, each is 30 units narrower.
//!     let records = (0..7_500u16).flat_map(|second| [second, 0xFFE2]);
//!     let words = [7_500].into_iter().chain(records);
//!     let pair_set = store.add_object(&words.flat_map(u16::to_be_bytes).collect::<Vec<_>>())?;
//!     store.add_link(table, slot, pair_set)?;
//! }
//!
//! let (edition, mut scratch) = (Edition::Second, Scratch::new());
//! assert_eq!(cut_plan(&store, table, edition, &mut scratch)?, [2]);
//! let before = read_pair(&store, table, 30, 70)?;
//! assert_eq!(before.unwrap().first.x_advance, -30);
//!
//! let new_tables = split(&mut store, table, edition, &mut scratch)?;
//! assert_eq!(new_tables.len(), 1);
//! assert_eq!(read_pair(&store, table, 30, 70)?, None);
//! assert_eq!(read_pair(&store, new_tables[0], 30, 70)?, before);
//! # Ok::<(), Refusal>(())
//! ```

#![deny(missing_docs, unsafe_code)]

mod compact;
mod edition;
pub mod explain;
mod fit;
pub mod font;
mod glyphs;
mod graph;
mod kind;
mod lookup;
mod mark;
mod need;
mod pair;
mod pieces;
mod plan;
pub mod provenance;
pub mod raw;
mod reach;
mod refusal;
mod scratch;
mod split;
mod split_in_lookups;
mod store;
pub mod store_file;
mod table;

pub use compact::{compact, Compacted, Freed};
pub use edition::Edition;
pub use explain::{explain, explain_compaction, explain_in_lookups, explain_marks, Explanation};
pub use fit::{Fit, Past};
pub use graph::{split_graph, split_marks_graph, GraphStore, ObjectGraph};
pub use kind::Kind;
pub use lookup::{apply_lookup, Lookup};
pub use mark::{read_mark, Attachment};
pub use pair::{read_pair, PairValues, Values};
pub use plan::{cut_plan, cut_plan_into, cut_plan_marks, cut_plan_marks_into};
pub use reach::Reach;
pub use refusal::Refusal;
pub use scratch::Scratch;
pub use split::{split, split_into, split_marks, split_marks_into};
pub use split_in_lookups::{split_in_lookups, split_in_lookups_into};
pub use store::{Link, LinkKind, Room, Store, StoreMut, StoreRef};
