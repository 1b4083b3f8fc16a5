//! New tables entered in lookups by the exported function.

use super::Archive;
use crate::{Call, LookupSubject};
use splitter::raw;

impl LookupSubject for Archive {
    fn split_in_lookups(&self, call: &mut Call<u32>) -> u32 {
        let (store, scratch) = (&mut call.store, &mut call.scratch);
        raw::split_in_lookups(
            &mut store.data,
            &mut store.objects,
            &mut store.links,
            &mut store.counts,
            call.lookup_list,
            call.table,
            call.edition,
            &mut scratch.walk,
            &mut scratch.glyph_set,
            &mut scratch.glyphs,
            &mut scratch.classes,
            &mut scratch.cuts,
            &mut call.list,
            &mut call.count,
        )
    }
}
