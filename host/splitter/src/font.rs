//! The tables of a font as stores.
//!
//! A font has its subtables packed, and offsets say where their parts are. Here each part becomes an
//! object and each offset a link; what several offsets lead to is one object. Whatever is wrong with
//! a font is a [`FontError`].
//!
//! ```
//! use splitter::font::{FontError, FontTables, TABLE};
//! use splitter::{Edition, Scratch};
//!
//! fn show_cuts(file: &[u8]) -> Result<(), FontError> {
//!     let font = FontTables::read(file)?;
//!     for table in &font.tables {
//!         let store = font.load(table)?;
//!         let (kind, edition) = (table.kind, Edition::Second);
//!         let cuts = kind.cut_plan(&store, TABLE, edition, &mut Scratch::new())?;
//!         println!("lookup {}: {cuts:?}", table.listed[0].lookup);
//!     }
//!     Ok(())
//! }
//! # let letter = b"a letter to a friend";
//! # assert_eq!(show_cuts(letter), Err(FontError::NotAFont));
//! ```
//!
//! [`Store::from_font`] gives one subtable of one lookup.

mod bytes;
mod directory;
mod error;
pub mod lengths;
mod loader;
mod lookups;
mod marks;
mod pairs;
mod tables;

pub use bytes::Bytes;
pub use directory::find_gpos;
pub use error::FontError;
pub use lookups::{Lookups, Subtable};
pub use marks::load_marks;
pub use pairs::load_pairs;
pub use tables::{FontTable, FontTables, Listed, OfKind};

use crate::{Kind, Store};

/// The table's number in its store.
pub const TABLE: u32 = 0;

/// A table of a kind with all that it leads to, as object [`TABLE`] of a store.
pub fn load(gpos: Bytes, kind: Kind, start: usize) -> Result<Store, FontError> {
    match kind {
        Kind::Pairs => load_pairs(gpos, start),
        Kind::Marks => load_marks(gpos, start),
    }
}
