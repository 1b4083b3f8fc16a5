//! The objects and links of a sound store.

use super::soundness::sound;
use oracle::{link, Store};
use std::ops::Range;

/// A link row: parent, position, width, child, kind.
pub type Link = link::Row;

/// What a sound store has in use.
#[derive(Clone, Copy, Debug)]
pub struct Objects<'a> {
    data: &'a [u8],
    rows: &'a [[u32; 2]],
    links: &'a [Link],
}

impl<'a> Objects<'a> {
    /// The objects of a store, if it is sound.
    pub fn of(store: &'a Store) -> Option<Self> {
        sound(store).then(|| Self {
            data: store.data_in_use(),
            rows: store.objects_in_use(),
            links: store.links_in_use(),
        })
    }

    /// How many objects there are.
    pub fn count(&self) -> usize {
        self.rows.len()
    }

    /// How many data bytes are in use.
    pub fn data_count(&self) -> usize {
        self.data.len()
    }

    /// Where an object's bytes start.
    pub fn head(&self, object: u32) -> usize {
        self.rows[object as usize][0] as usize
    }

    /// An object's bytes.
    pub fn bytes(&self, object: u32) -> &'a [u8] {
        let [head, tail] = self.rows[object as usize];
        &self.data[head as usize..tail as usize]
    }

    /// All links of both kinds, in order of parent, kind, position and child.
    pub fn links(&self) -> &'a [Link] {
        self.links
    }

    /// The offsets of a parent. They alone are followed, asked, counted and copied.
    pub fn offsets_of(&self, parent: u32) -> &'a [Link] {
        let start = self.links.partition_point(|link| link[0] < parent);
        let links = &self.links[start..];
        let is_offset_of = |link: &Link| link[0] == parent && link::is_offset(link);
        &links[..links.partition_point(is_offset_of)]
    }

    /// The offsets of a parent at some of its positions.
    pub fn offsets_within(&self, parent: u32, positions: Range<usize>) -> &'a [Link] {
        let offsets = self.offsets_of(parent);
        let below = |bound| offsets.partition_point(|link| (link[1] as usize) < bound);
        &offsets[below(positions.start)..below(positions.end)]
    }

    /// The object that the offset at a position leads to.
    pub fn child_at(&self, parent: u32, position: usize) -> Option<u32> {
        let offset = self
            .offsets_within(parent, position..position + 1)
            .first()?;
        Some(offset[3])
    }
}
