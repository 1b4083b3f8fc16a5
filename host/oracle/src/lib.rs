//! The splitters of skera 0.6.0, unchanged, over a plain stand-in graph.
//!
//! `docs/src/graph` is compiled as it stands. What it uses of the crate and of `write_fonts` is
//! replaced by the small modules here, under the names that the text asks for:
//!
//! | the text says | here |
//! |---|---|
//! | `crate::graph` | [`Graph`], its objects and its walk |
//! | `crate::serialize` | links, and bytes gathered |
//! | `write_fonts::read` | [`read`]: the integer set, and the readers of Coverage and ClassDef |
//! | `write_fonts::types` | [`types`]: big-endian numbers and glyphs |
//!
//! ```
//! use oracle::{split, write, Store};
//!
//! let mut store = Store::default();
//! let table = store.push_object(&[0, 1, 0, 0, 0, 4, 0, 0, 0, 1, 0, 0]);
//! let coverage = store.push_object(&write::coverage(&[7]));
//! let pair_set = store.push_object(&[0; 65_518]);
//! store.push_link(table, 2, coverage);
//! store.push_link(table, 10, pair_set);
//!
//! assert_eq!(split(&store, table).unwrap().cuts, [0]);
//! ```

#![deny(missing_docs)]

// The text names `write_fonts`; the modules `read` and `types` are what it finds there.
extern crate self as write_fonts;

mod graph;
pub mod link;
pub mod read;
mod serialize;
mod split;
mod store;
pub mod types;
pub mod write;

pub use graph::{Graph, RepackError};
pub use serialize::ObjIdx;
pub use split::{split, split_markbase, Split};
pub use store::Store;

use serialize::{SerializeErrorFlags, Serializer};

/// A table that can be written from its contents.
trait Serialize<'a> {
    type Args: 'a;

    fn serialize(s: &mut Serializer, args: Self::Args) -> Result<(), SerializeErrorFlags>;
}
