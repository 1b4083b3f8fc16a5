//! What a split writes.

pub mod pairs;

use super::{objects::Link, soundness::room};
use oracle::Store;

/// All that a split at one or more places changes.
#[derive(Clone, Debug)]
pub struct Written {
    /// The numbers of the new tables.
    pub new_tables: Vec<u32>,
    /// The bytes of the new objects, in order.
    pub new_objects: Vec<Vec<u8>>,
    /// All link rows, of both kinds.
    pub links: Vec<Link>,
    /// What becomes of the old table.
    pub kept: Kept,
}

/// The old table, changed in place.
#[derive(Clone, Copy, Debug)]
pub struct Kept {
    /// Its number.
    pub table: u32,
    /// Where it ends now.
    pub tail: u32,
    /// Where in the data its count of items stands.
    pub count_at: usize,
    /// How many items it has now.
    pub count: u16,
}

impl Written {
    /// What it adds to data, objects and links in use.
    pub fn need(&self, store: &Store) -> [usize; 3] {
        [
            self.new_objects.iter().map(Vec::len).sum(),
            self.new_objects.len(),
            self.links.len() - store.counts[2] as usize,
        ]
    }

    /// Whether the store has room for it.
    pub fn fits(&self, store: &Store) -> bool {
        let need = self.need(store);
        let room = room(store);
        (0..3).all(|i| store.counts[i] as usize + need[i] <= room[i])
    }

    /// Writes it into the store, which has room for it.
    pub fn carry_out(&self, store: &mut Store) {
        let Kept {
            table,
            tail,
            count_at,
            count,
        } = self.kept;
        put(&mut store.data, count_at, &count.to_be_bytes());
        store.objects[2 * table as usize + 1] = tail;
        for bytes in &self.new_objects {
            let [head, object, _] = store.counts;
            let tail = head + bytes.len() as u32;
            put(&mut store.data, head as usize, bytes);
            put(&mut store.objects, 2 * object as usize, &[head, tail]);
            store.counts[0] = tail;
            store.counts[1] += 1;
        }
        put(&mut store.links, 0, self.links.as_flattened());
        store.counts[2] = self.links.len() as u32;
    }
}

/// Writes over a part of what is there.
pub(super) fn put<N: Copy>(all: &mut [N], at: usize, part: &[N]) {
    all[at..at + part.len()].copy_from_slice(part);
}
