//! A plain model of the splitter's rules, and the runs that hold it and the proved functions against
//! the oracle.
//!
//! The rules are written here a second time, in plain Rust and from documents 01 and 02 alone: clear
//! before fast. Whatever splits PairPos tables is a [`Subject`], whatever splits MarkBasePos tables a
//! [`MarkSubject`], whatever enters new tables in lookups a [`LookupSubject`], and whatever compacts stores a
//! [`CompactSubject`]; the [`Model`] is all of these, and so is the [`Archive`]. Two subjects agree if a call leaves the same answer and the same
//! contents, to the last number.
//!
//! The rule has two editions. The oracle is of the first alone; what the second guarantees is checked item by
//! item, and on small tables over all lists of cuts.
//!
//! | module | holds |
//! |---|---|
//! | [`model`] | the rules: soundness, answers, cut places, what is written, pairs, attachments, lookups, and what is kept |
//! | [`by_hand`] | small stores for figures |
//! | [`generate`] | valid stores of both formats, of marks, and with lookups, each from its seed; roots of these |
//! | [`lend`] | scratch and room for a call, exact or ample |
//! | [`damage`] | damaged calls, one for each edge of each refusal |
//! | [`compare`] | what is reachable from tables, renumbered, parts by meaning |
//! | [`product`] | where the 16-bit product of the crate's text shows |
//! | [`kept_offsets`] | where the crate's text keeps old offsets |
//! | [`check`] | what must hold of a split: against the oracle, against the model, and by the second edition; and of a compaction |
//! | [`explained`] | the host library's explanations, held to the proved functions |
//! | [`vectors`] | a sample of the answers, stored for the program `vectors` |
//! | [`runs`] | all that is asked of the store of one seed |
//!
//! ```
//! use differential::{check, generate, lend, Archive, Edition, Random, Tally};
//!
//! let case = generate::format2(7);
//! let call = lend::amply(&case.store, case.table, Edition::First, &mut Random::new(7));
//! check::split_agrees(&Archive, &call).unwrap();
//! let split = check::Split::by(&Archive, &call);
//! check::as_the_oracle(&split, &mut Tally::default()).unwrap();
//! ```

#![deny(missing_docs)]

mod archive;
pub mod by_hand;
pub mod check;
pub mod compare;
pub mod damage;
pub mod edit;
pub mod explained;
pub mod generate;
pub mod kept_offsets;
pub mod lend;
pub mod model;
pub mod product;
mod random;
pub mod runs;
mod subject;
mod tally;
pub mod vectors;

pub use archive::Archive;
pub use model::{cuts::Edition, Model};
pub use random::Random;
pub use subject::{
    Attachment, Call, CompactSubject, Compaction, Functions, InLookups, LookupSubject, MarkSubject,
    Marks, Pair, Scratch, Splits, Subject,
};
pub use tally::Tally;

// Lengths, positions and sums are `usize`, and must not wrap.
const _: () = assert!(usize::BITS == 64);
