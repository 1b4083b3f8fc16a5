//! Compaction: what offsets reach from the roots is kept, in the old order and with no gap, and the rest goes.

use super::{answers::Refusal, objects::Objects, reach::Seen};
use crate::Compaction;
use oracle::{link, Store};

/// What is left of a store, where its roots are now, and how many bytes moved.
#[derive(Clone, Debug)]
pub struct Compacted {
    /// The store: between the new counts and the old ones it is zero, and behind these as it was.
    pub store: Store,
    /// The new numbers of the roots.
    pub roots: Vec<u32>,
    /// The summed lengths of the kept objects whose heads changed.
    pub moved: usize,
}

/// What a call leaves, by checks 1, 2 and 6.
pub fn compact(call: &Compaction) -> Result<Compacted, Refusal> {
    let Compaction {
        store, roots, walk, ..
    } = call;
    let objects = Objects::of(store).ok_or(Refusal::Unsound)?;
    let is_in_use = |root: &u32| (*root as usize) < objects.count();
    if !roots.iter().all(is_in_use) {
        return Err(Refusal::NoTable);
    }
    if walk.len() < 2 * objects.count() {
        return Err(Refusal::ShortScratch);
    }
    let kept = Kept::from(objects, roots);
    Ok(Compacted {
        store: kept.alone(store),
        roots: roots.iter().filter_map(|&root| kept.number(root)).collect(),
        moved: kept.moved(),
    })
}

/// The objects that are kept.
struct Kept<'a> {
    objects: Objects<'a>,
    /// Their old numbers, which ascend: an object's new number is its place here.
    numbers: Vec<u32>,
}

impl<'a> Kept<'a> {
    /// What offsets reach from the roots, and the roots themselves.
    fn from(objects: Objects<'a>, roots: &[u32]) -> Self {
        let mut seen = Seen::nothing(objects);
        for &root in roots {
            seen.add(root);
        }
        let all = 0..objects.count() as u32;
        Self {
            objects,
            numbers: all.filter(|&object| seen.has(object)).collect(),
        }
    }

    /// An object's new number, if it is kept.
    fn number(&self, object: u32) -> Option<u32> {
        let place = self.numbers.binary_search(&object).ok()?;
        Some(place as u32)
    }

    /// The kept objects one behind the other, and the links that have both their ends.
    fn alone(&self, old: &Store) -> Store {
        let mut store = Store::default();
        for &object in &self.numbers {
            store.push_object(self.objects.bytes(object));
        }
        let links = self.objects.links().iter();
        let links: Vec<link::Row> = links.filter_map(|row| self.renumbered(row)).collect();
        store.counts[2] = links.len() as u32;
        store.links = links.into_flattened();
        let [data, objects, links] = old.counts.map(|count| count as usize);
        fill(&mut store.data, &old.data, data);
        fill(&mut store.objects, &old.objects, 2 * objects);
        fill(&mut store.links, &old.links, link::NUMBERS * links);
        store
    }

    fn renumbered(&self, row: &link::Row) -> Option<link::Row> {
        let &[parent, position, width, child, kind] = row;
        let (parent, child) = (self.number(parent)?, self.number(child)?);
        Some([parent, position, width, child, kind])
    }

    fn moved(&self) -> usize {
        let (mut head, mut moved) = (0, 0);
        for &object in &self.numbers {
            let len = self.objects.bytes(object).len();
            if self.objects.head(object) != head {
                moved += len;
            }
            head += len;
        }
        moved
    }
}

/// Zeros up to where the old numbers were in use, and behind that what there was.
fn fill<N: Clone + Default>(numbers: &mut Vec<N>, old: &[N], in_use: usize) {
    numbers.resize(in_use, N::default());
    numbers.extend_from_slice(&old[in_use..]);
}
