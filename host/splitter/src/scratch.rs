//! The scratch of a split, a cut plan and a compaction.

use crate::{
    need::{self, Need},
    raw, Edition, Freed, Kind, Refusal, Room, StoreMut, StoreRef,
};

const GLYPH_SET: usize = 8_192;

/// Buffers that splits, cut plans and compactions work in, kept from call to call.
///
/// They grow as tables need them, up to 1 MB. One is enough for all stores and tables, of both kinds,
/// and no call leaves anything in it.
#[derive(Clone, Debug, Default)]
pub struct Scratch {
    walk: Vec<u32>,
    glyph_set: Vec<u8>,
    glyphs: Vec<u16>,
    classes: Vec<u16>,
    cuts: Vec<u16>,
}

impl Scratch {
    /// Scratch that has not been used yet.
    pub const fn new() -> Self {
        Self {
            walk: Vec::new(),
            glyph_set: Vec::new(),
            glyphs: Vec::new(),
            classes: Vec::new(),
            cuts: Vec::new(),
        }
    }

    pub(crate) fn split(
        &mut self,
        kind: Kind,
        store: StoreMut,
        table: u32,
        edition: Edition,
        new_tables: &mut [u32],
    ) -> Result<usize, Refusal> {
        let need = Need::of(kind, store.view(), table);
        let split = match kind {
            Kind::Pairs => raw::split_pairpos,
            Kind::Marks => raw::split_markbasepos,
        };
        let mut count = 0;
        let answer = split(
            store.data,
            store.objects,
            store.links,
            store.counts,
            table,
            edition.number(),
            part(&mut self.walk, 2 * need.objects),
            part(&mut self.glyph_set, GLYPH_SET),
            part(&mut self.glyphs, need.glyphs),
            part(&mut self.classes, need.glyphs),
            part(&mut self.cuts, need.items),
            new_tables,
            &mut count,
        );
        Refusal::answered(answer).map(|()| count as usize)
    }

    pub(crate) fn split_in_lookups(
        &mut self,
        store: StoreMut,
        list: u32,
        table: u32,
        edition: Edition,
        new_tables: &mut [u32],
    ) -> Result<usize, Refusal> {
        let need = Need::of(Kind::Pairs, store.view(), table);
        let mut count = 0;
        let answer = raw::split_in_lookups(
            store.data,
            store.objects,
            store.links,
            store.counts,
            list,
            table,
            edition.number(),
            part(&mut self.walk, 2 * need.objects),
            part(&mut self.glyph_set, GLYPH_SET),
            part(&mut self.glyphs, need.glyphs),
            part(&mut self.classes, need.glyphs),
            part(&mut self.cuts, need.items),
            new_tables,
            &mut count,
        );
        Refusal::answered(answer).map(|()| count as usize)
    }

    pub(crate) fn plan(
        &mut self,
        kind: Kind,
        store: StoreRef,
        table: u32,
        edition: Edition,
        places: &mut [u16],
    ) -> Result<usize, Refusal> {
        let need = Need::of(kind, store, table);
        let plan = match kind {
            Kind::Pairs => raw::cut_plan,
            Kind::Marks => raw::cut_plan_markbasepos,
        };
        let mut count = 0;
        let answer = plan(
            store.data,
            store.objects,
            store.links,
            store.counts,
            table,
            edition.number(),
            part(&mut self.walk, 2 * need.objects),
            part(&mut self.glyph_set, GLYPH_SET),
            part(&mut self.glyphs, need.glyphs),
            part(&mut self.classes, need.glyphs),
            part(&mut self.cuts, need.items),
            places,
            &mut count,
        );
        Refusal::answered(answer).map(|()| count as usize)
    }

    pub(crate) fn compact(&mut self, store: StoreMut, roots: &mut [u32]) -> Result<Freed, Refusal> {
        let (before, objects) = (*store.counts, need::objects(store.view()));
        let mut moved = 0;
        let answer = raw::compact(
            store.data,
            store.objects,
            store.links,
            store.counts,
            roots,
            part(&mut self.walk, 2 * objects),
            &mut moved,
        );
        Refusal::answered(answer)?;
        let [data, objects, links] = [0, 1, 2].map(|of| (before[of] - store.counts[of]) as usize);
        Ok(Freed {
            room: Room {
                data,
                objects,
                links,
            },
            moved: moved as usize,
        })
    }
}

/// As much as is needed, and no more: a call clears what it is lent.
fn part<N: Clone + Default>(numbers: &mut Vec<N>, len: usize) -> &mut [N] {
    if numbers.len() < len {
        numbers.resize(len, N::default());
    }
    &mut numbers[..len]
}
