//! The exported functions, which are proved, as a subject.

mod compaction;
mod lookups;

use crate::{Attachment, Call, MarkSubject, Pair, Subject};
use oracle::Store;
use splitter::raw;

/// The proved functions, as the archive has them.
#[derive(Clone, Copy, Debug)]
pub struct Archive;

/// Makes a call by an exported function: a split, of whichever kind of table.
macro_rules! split_by {
    ($function:path, $call:ident) => {{
        let (store, scratch) = (&mut $call.store, &mut $call.scratch);
        $function(
            &mut store.data,
            &mut store.objects,
            &mut store.links,
            &mut store.counts,
            $call.table,
            $call.edition,
            &mut scratch.walk,
            &mut scratch.glyph_set,
            &mut scratch.glyphs,
            &mut scratch.classes,
            &mut scratch.cuts,
            &mut $call.list,
            &mut $call.count,
        )
    }};
}

/// The same of a cut plan.
macro_rules! plan_by {
    ($function:path, $call:ident) => {{
        let (store, scratch) = (&$call.store, &mut $call.scratch);
        $function(
            &store.data,
            &store.objects,
            &store.links,
            &store.counts,
            $call.table,
            $call.edition,
            &mut scratch.walk,
            &mut scratch.glyph_set,
            &mut scratch.glyphs,
            &mut scratch.classes,
            &mut scratch.cuts,
            &mut $call.list,
            &mut $call.count,
        )
    }};
}

impl Subject for Archive {
    fn split_pairpos(&self, call: &mut Call<u32>) -> u32 {
        split_by!(raw::split_pairpos, call)
    }

    fn cut_plan(&self, call: &mut Call<u16>) -> u32 {
        plan_by!(raw::cut_plan, call)
    }

    fn read_pair(&self, store: &Store, table: u32, glyphs: [u16; 2], pair: &mut Pair) -> u32 {
        let [first, second] = glyphs;
        raw::read_pair(
            &store.data,
            &store.objects,
            &store.links,
            &store.counts,
            table,
            first,
            second,
            &mut pair.values,
            &mut pair.found,
        )
    }
}

impl MarkSubject for Archive {
    fn split_markbasepos(&self, call: &mut Call<u32>) -> u32 {
        split_by!(raw::split_markbasepos, call)
    }

    fn cut_plan_markbasepos(&self, call: &mut Call<u16>) -> u32 {
        plan_by!(raw::cut_plan_markbasepos, call)
    }

    fn read_mark(
        &self,
        store: &Store,
        table: u32,
        glyphs: [u16; 2],
        attachment: &mut Attachment,
    ) -> u32 {
        let [mark, base] = glyphs;
        raw::read_mark(
            &store.data,
            &store.objects,
            &store.links,
            &store.counts,
            table,
            mark,
            base,
            &mut attachment.anchors,
            &mut attachment.found,
        )
    }
}
