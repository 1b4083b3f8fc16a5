//! The object store as its caller lends it.

use crate::{link, ObjIdx};

/// An object store in flat rows of numbers.
///
/// All three may be longer than what is in use: `counts` says how much of each is.
#[derive(Clone, Debug, Default, PartialEq, Eq)]
pub struct Store {
    /// The bytes of all objects.
    pub data: Vec<u8>,
    /// Rows of two: head, tail.
    pub objects: Vec<u32>,
    /// Rows of five: parent, position, width, child, kind. They ascend by parent, kind, position and child.
    pub links: Vec<u32>,
    /// How many data bytes, object rows and link rows are in use.
    pub counts: [u32; 3],
}

impl Store {
    /// The data bytes in use, or as many as there are.
    pub fn data_in_use(&self) -> &[u8] {
        in_use(&self.data, self.counts[0])
    }

    /// The object rows in use, or as many as there are.
    pub fn objects_in_use(&self) -> &[[u32; 2]] {
        in_use(self.objects.as_chunks().0, self.counts[1])
    }

    /// The link rows in use, or as many as there are.
    pub fn links_in_use(&self) -> &[link::Row] {
        in_use(self.links.as_chunks().0, self.counts[2])
    }

    /// Adds an object behind all that is in use, and drops what lay beyond.
    pub fn push_object(&mut self, bytes: &[u8]) -> ObjIdx {
        let [data, objects, _] = self.counts;
        let tail = data + bytes.len() as u32;
        self.data.truncate(data as usize);
        self.data.extend_from_slice(bytes);
        self.objects.truncate(2 * objects as usize);
        self.objects.extend([data, tail]);
        self.counts[0] = tail;
        self.counts[1] += 1;
        objects as ObjIdx
    }

    /// Adds an offset of two bytes in its place among the rows, and drops what lay beyond.
    pub fn push_link(&mut self, parent: ObjIdx, position: u32, child: ObjIdx) {
        self.push_row(link::offset(parent as u32, position, child as u32));
    }

    /// Adds an order-only link in its place among the rows, and drops what lay beyond.
    pub fn push_order_link(&mut self, parent: ObjIdx, child: ObjIdx) {
        self.push_row(link::order_only(parent as u32, child as u32));
    }

    fn push_row(&mut self, row: link::Row) {
        let rank = link::rank(&row);
        let rows = self.links_in_use();
        let place = link::NUMBERS * rows.partition_point(|row| link::rank(row) < rank);
        self.links.truncate(link::NUMBERS * self.counts[2] as usize);
        self.links.splice(place..place, row);
        self.counts[2] += 1;
    }
}

fn in_use<T>(rows: &[T], count: u32) -> &[T] {
    &rows[..rows.len().min(count as usize)]
}
