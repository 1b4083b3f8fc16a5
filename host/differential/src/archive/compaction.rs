//! Compaction by the exported function.

use super::Archive;
use crate::{CompactSubject, Compaction};
use splitter::raw;

impl CompactSubject for Archive {
    fn compact(&self, call: &mut Compaction) -> u32 {
        let store = &mut call.store;
        raw::compact(
            &mut store.data,
            &mut store.objects,
            &mut store.links,
            &mut store.counts,
            &mut call.roots,
            &mut call.walk,
            &mut call.moved,
        )
    }
}
