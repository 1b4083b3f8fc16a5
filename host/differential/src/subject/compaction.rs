//! The exported function that compacts, as a seam.

use super::differ;
use oracle::Store;

/// Something that compacts stores.
///
/// It returns its answer number. What it is lent may hold anything at entry.
pub trait CompactSubject {
    /// Keeps what the roots reach, and closes the store up; the list takes the new numbers of the roots.
    fn compact(&self, call: &mut Compaction) -> u32;
}

/// All that a compaction is lent.
#[derive(Clone, Debug, Default, PartialEq, Eq)]
pub struct Compaction {
    /// Data bytes, object rows and link rows, with their counts in use.
    pub store: Store,
    /// The roots.
    pub roots: Vec<u32>,
    /// Two numbers an object in use, zero after every call.
    pub walk: Vec<u32>,
    /// How many bytes moved.
    pub moved: u32,
}

impl Compaction {
    /// The first place in which two calls differ.
    pub fn difference(&self, other: &Self) -> Option<String> {
        None.or_else(|| differ("counts", &self.store.counts, &other.store.counts))
            .or_else(|| differ("objects", &self.store.objects, &other.store.objects))
            .or_else(|| differ("links", &self.store.links, &other.store.links))
            .or_else(|| differ("data", &self.store.data, &other.store.data))
            .or_else(|| differ("roots", &self.roots, &other.roots))
            .or_else(|| differ("walk", &self.walk, &other.walk))
            .or_else(|| differ("moved", &[self.moved], &[other.moved]))
    }
}
