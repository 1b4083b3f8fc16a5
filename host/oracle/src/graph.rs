//! The objects, their links, and what the splitters do to them.

// The text of the crate, as it stands; `skip` keeps the formatter off it.
#[rustfmt::skip]
#[path = "../../../docs/src/graph/coverage_graph.rs"]
mod coverage_graph;
pub(crate) mod layout;
#[rustfmt::skip]
#[path = "../../../docs/src/graph/markbasepos_graph.rs"]
mod markbasepos_graph;
#[rustfmt::skip]
#[path = "../../../docs/src/graph/pairpos_graph.rs"]
mod pairpos_graph;
#[cfg(test)]
mod tests;

use crate::{
    link,
    read::collections::IntSet,
    serialize::{Link, LinkWidth, ObjIdx},
    Store,
};
use std::{collections::BTreeMap, ops::Range};

/// Why a split failed, by the names of the text.
#[derive(Clone, Copy, Debug, PartialEq, Eq)]
pub enum RepackError {
    /// An object or link that is not there.
    GraphErrorInvalidObjIndex,
    /// A table that cannot be read.
    ErrorReadTable,
    /// A table that cannot be parted as planned.
    ErrorSplitSubtable,
    /// A table that cannot be written.
    ErrorRepackSerialize,
}

/// An object: its part of the data, and its links by position.
#[derive(Clone, Debug, Default)]
struct Vertex {
    head: usize,
    tail: usize,
    real_links: BTreeMap<u32, Link>,
}

impl Vertex {
    fn range(&self) -> Range<usize> {
        self.head..self.tail
    }

    fn table_size(&self) -> usize {
        self.tail - self.head
    }

    fn real_links(&self) -> &BTreeMap<u32, Link> {
        &self.real_links
    }
}

/// The graph of a store's objects.
#[derive(Clone, Debug, Default)]
pub struct Graph {
    data: Vec<u8>,
    vertices: Vec<Vertex>,
    /// Whether new objects are refused.
    is_closed: bool,
}

/// Loading a store, splitting, and looking at what there is.
impl Graph {
    /// The objects and offsets that a store has in use. The text knows no other links.
    ///
    /// Fails where a row leads outside the data or the objects, or the width of an offset is not 2.
    pub fn load(store: &Store) -> Result<Self, RepackError> {
        let mut graph = Self::default();
        graph.data.extend_from_slice(store.data_in_use());
        for &[head, tail] in store.objects_in_use() {
            let (head, tail) = (head as usize, tail as usize);
            if graph.data.get(head..tail).is_none() {
                return Err(RepackError::GraphErrorInvalidObjIndex);
            }
            graph.push_vertex(head..tail);
        }
        let rows = store.links_in_use().iter();
        for &[parent, position, width, child, _] in rows.filter(|row| link::is_offset(row)) {
            if width != 2 {
                return Err(RepackError::GraphErrorInvalidObjIndex);
            }
            let (parent, child) = (parent as ObjIdx, child as ObjIdx);
            graph.add_parent_child_link(parent, child, LinkWidth::Two, position, false)?;
        }
        Ok(graph)
    }

    /// Splits a PairPos table, and gives the new tables. A failure may leave the graph changed.
    pub fn split_pairpos(&mut self, table_idx: ObjIdx) -> Result<Vec<ObjIdx>, RepackError> {
        pairpos_graph::split_pairpos(self, table_idx)
    }

    /// Splits a MarkBasePos table, and gives the new tables. A failure may leave the graph changed.
    pub fn split_markbase_pos(&mut self, table_idx: ObjIdx) -> Result<Vec<ObjIdx>, RepackError> {
        markbasepos_graph::split_markbase_pos(self, table_idx)
    }

    /// Finds where a PairPos table is to be cut, and says whether it is to be cut at all.
    ///
    /// This is a split that ends where it would add its first new object: nothing is changed.
    pub fn plan_pairpos(&mut self, table_idx: ObjIdx) -> Result<bool, RepackError> {
        self.plan(|graph| graph.split_pairpos(table_idx))
    }

    /// Finds where a MarkBasePos table is to be cut, and says whether it is to be cut at all.
    pub fn plan_markbase_pos(&mut self, table_idx: ObjIdx) -> Result<bool, RepackError> {
        self.plan(|graph| graph.split_markbase_pos(table_idx))
    }

    fn plan(
        &mut self,
        split: impl FnOnce(&mut Self) -> Result<Vec<ObjIdx>, RepackError>,
    ) -> Result<bool, RepackError> {
        self.is_closed = true;
        let outcome = split(self);
        self.is_closed = false;
        match outcome {
            Ok(_) => Ok(false),
            Err(RepackError::ErrorRepackSerialize) => Ok(true),
            Err(error) => Err(error),
        }
    }

    /// A copy that has room for so many more bytes and objects, and need not move to take them.
    pub fn with_room(&self, bytes: usize, objects: usize) -> Self {
        let mut data = Vec::with_capacity(self.data.len() + bytes);
        data.extend_from_slice(&self.data);
        // Memory that was never written is not there yet.
        data.resize(data.capacity(), 0);
        data.truncate(self.data.len());
        let mut vertices = Vec::with_capacity(self.vertices.len() + objects);
        vertices.extend_from_slice(&self.vertices);
        Self {
            data,
            vertices,
            is_closed: self.is_closed,
        }
    }

    /// How many objects there are.
    pub fn num_vertices(&self) -> usize {
        self.vertices.len()
    }

    /// The bytes of all objects; those of new objects are packed behind the old.
    pub fn data(&self) -> &[u8] {
        &self.data
    }

    /// An object's bytes.
    pub fn vertex_data(&self, obj_idx: ObjIdx) -> Option<&[u8]> {
        self.data.get(self.vertex(obj_idx)?.range())
    }

    /// An object's links in order of position: the position, and the object it leads to.
    pub fn links(&self, obj_idx: ObjIdx) -> impl Iterator<Item = (u32, ObjIdx)> + '_ {
        self.vertex(obj_idx)
            .into_iter()
            .flat_map(|vertex| vertex.real_links.values())
            .map(|link| (link.position(), link.obj_idx()))
    }
}

/// What a host does with such a graph of its own, by the methods that the text asks for.
impl Graph {
    /// Adds an object of these bytes.
    pub fn add_object(&mut self, bytes: &[u8]) -> Result<ObjIdx, RepackError> {
        let obj_idx = self.new_vertex(bytes.len())?;
        let data = self.mut_vertex_data(obj_idx);
        data.ok_or(RepackError::GraphErrorInvalidObjIndex)?
            .copy_from_slice(bytes);
        Ok(obj_idx)
    }

    /// Gives an object these links, and no others.
    pub fn set_links(
        &mut self,
        obj_idx: ObjIdx,
        links: &[(u32, ObjIdx)],
    ) -> Result<(), RepackError> {
        self.mut_vertex(obj_idx)
            .ok_or(RepackError::GraphErrorInvalidObjIndex)?
            .real_links
            .clear();
        for &(position, child_idx) in links {
            self.add_parent_child_link(obj_idx, child_idx, LinkWidth::Two, position, false)?;
        }
        Ok(())
    }

    /// Gives an object these bytes, as many as it has or fewer, in its place.
    pub fn shorten(&mut self, obj_idx: ObjIdx, bytes: &[u8]) -> Result<(), RepackError> {
        let vertex = self
            .mut_vertex(obj_idx)
            .filter(|vertex| bytes.len() <= vertex.table_size())
            .ok_or(RepackError::GraphErrorInvalidObjIndex)?;
        vertex.tail = vertex.head + bytes.len();
        let data = self.mut_vertex_data(obj_idx);
        data.ok_or(RepackError::GraphErrorInvalidObjIndex)?
            .copy_from_slice(bytes);
        Ok(())
    }
}

/// What the text asks of a graph.
impl Graph {
    fn vertex(&self, obj_idx: ObjIdx) -> Option<&Vertex> {
        self.vertices.get(obj_idx)
    }

    fn mut_vertex(&mut self, obj_idx: ObjIdx) -> Option<&mut Vertex> {
        self.vertices.get_mut(obj_idx)
    }

    fn mut_vertex_data(&mut self, obj_idx: ObjIdx) -> Option<&mut [u8]> {
        let range = self.vertex(obj_idx)?.range();
        self.data.get_mut(range)
    }

    fn index_for_position(&self, obj_idx: ObjIdx, position: u32) -> Option<ObjIdx> {
        let link = self.vertex(obj_idx)?.real_links.get(&position)?;
        Some(link.obj_idx())
    }

    /// The summed length of what can be reached from an object, leaving out what was visited.
    ///
    /// Each object counts once. The walk has a list of its own, so no depth is too deep for it.
    fn find_subgraph_size(
        &self,
        obj_idx: ObjIdx,
        visited: &mut IntSet<u32>,
        _max_depth: u16,
    ) -> Result<usize, RepackError> {
        let mut size = 0;
        let mut pending = Vec::new();
        let mut next = Some(obj_idx);
        while let Some(idx) = next {
            if visited.insert(idx as u32) {
                let vertex = self
                    .vertex(idx)
                    .ok_or(RepackError::GraphErrorInvalidObjIndex)?;
                size += vertex.table_size();
                pending.extend(vertex.real_links.values().map(Link::obj_idx));
            }
            next = pending.pop();
        }
        Ok(size)
    }

    /// Adds an object of so many zeros.
    fn new_vertex(&mut self, size: usize) -> Result<ObjIdx, RepackError> {
        self.ensure_open()?;
        let head = self.data.len();
        self.data.resize(head + size, 0);
        Ok(self.push_vertex(head..head + size))
    }

    fn ensure_open(&self) -> Result<(), RepackError> {
        match self.is_closed {
            true => Err(RepackError::ErrorRepackSerialize),
            false => Ok(()),
        }
    }

    fn push_vertex(&mut self, range: Range<usize>) -> ObjIdx {
        self.vertices.push(Vertex {
            head: range.start,
            tail: range.end,
            real_links: BTreeMap::new(),
        });
        self.vertices.len() - 1
    }

    /// Gives an object new bytes at the end of the data. Links belong to bytes: it has none then.
    ///
    /// Bytes that are the last of the data give way to the new ones, so that these stay packed.
    fn update_vertex_data(&mut self, obj_idx: ObjIdx, bytes: &[u8]) -> Result<(), RepackError> {
        let end = self.data.len();
        let vertex = self
            .vertices
            .get_mut(obj_idx)
            .ok_or(RepackError::GraphErrorInvalidObjIndex)?;
        if vertex.tail < end {
            vertex.head = end;
        }
        vertex.tail = vertex.head + bytes.len();
        vertex.real_links.clear();
        self.data.truncate(vertex.head);
        self.data.extend_from_slice(bytes);
        Ok(())
    }

    /// Leads the parent's link at `position` to a copy of the child; the child stays as it is.
    fn unshared_child(
        &mut self,
        parent_idx: ObjIdx,
        child_idx: ObjIdx,
        position: u32,
    ) -> Result<ObjIdx, RepackError> {
        let child = self
            .vertex(child_idx)
            .ok_or(RepackError::GraphErrorInvalidObjIndex)?
            .clone();
        self.ensure_open()?;
        let head = self.data.len();
        self.data.extend_from_within(child.range());
        let copy_idx = self.push_vertex(head..self.data.len());
        self.vertices[copy_idx].real_links = child.real_links;
        self.add_parent_child_link(parent_idx, copy_idx, LinkWidth::Two, position, false)?;
        Ok(copy_idx)
    }

    /// Links a parent's position to a child. There are no virtual links here.
    fn add_parent_child_link(
        &mut self,
        parent_idx: ObjIdx,
        child_idx: ObjIdx,
        _width: LinkWidth,
        position: u32,
        _is_virtual: bool,
    ) -> Result<(), RepackError> {
        self.vertex(child_idx)
            .ok_or(RepackError::GraphErrorInvalidObjIndex)?;
        self.mut_vertex(parent_idx)
            .ok_or(RepackError::GraphErrorInvalidObjIndex)?
            .real_links
            .insert(position, Link::new(child_idx, position));
        Ok(())
    }

    /// Moves a link from one object to another, and says whether there was one to move.
    fn move_child(
        &mut self,
        old_parent_idx: ObjIdx,
        old_position: u32,
        new_parent_idx: ObjIdx,
        new_position: u32,
        _width: usize,
    ) -> Result<bool, RepackError> {
        let old_links = &mut self
            .mut_vertex(old_parent_idx)
            .ok_or(RepackError::GraphErrorInvalidObjIndex)?
            .real_links;
        let Some(mut link) = old_links.remove(&old_position) else {
            return Ok(false);
        };
        link.update_position(new_position);
        self.mut_vertex(new_parent_idx)
            .ok_or(RepackError::GraphErrorInvalidObjIndex)?
            .real_links
            .insert(new_position, link);
        Ok(true)
    }

    /// Moves the links of `count` fields in a row.
    fn move_children(
        &mut self,
        old_parent_idx: ObjIdx,
        old_position: u32,
        new_parent_idx: ObjIdx,
        new_position: u32,
        count: u32,
        width: usize,
    ) -> Result<(), RepackError> {
        for i in 0..count {
            let step = i * width as u32;
            self.move_child(
                old_parent_idx,
                old_position + step,
                new_parent_idx,
                new_position + step,
                width,
            )?;
        }
        Ok(())
    }
}
