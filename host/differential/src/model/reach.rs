//! What can be reached along offsets: order-only links are not followed.

use super::objects::{Link, Objects};

/// The objects that were counted since the last time that all were forgotten.
#[derive(Clone, Debug)]
pub struct Seen<'a> {
    objects: Objects<'a>,
    /// When each object was last counted.
    marks: Vec<usize>,
    now: usize,
}

impl<'a> Seen<'a> {
    /// Nothing is seen yet.
    pub fn nothing(objects: Objects<'a>) -> Self {
        Self {
            objects,
            marks: vec![0; objects.count()],
            now: 1,
        }
    }

    /// Forgets all.
    pub fn forget(&mut self) {
        self.now += 1;
    }

    /// Whether an object is seen.
    pub fn has(&self, object: u32) -> bool {
        self.marks[object as usize] == self.now
    }

    /// The summed length of all objects that these links reach and that were not seen before.
    pub fn count(&mut self, links: &[Link]) -> usize {
        self.reach(links.iter().map(|link| link[3]).collect())
    }

    /// Sees an object, and all that it reaches.
    pub fn add(&mut self, object: u32) {
        self.reach(vec![object]);
    }

    fn reach(&mut self, mut pending: Vec<u32>) -> usize {
        let mut size = 0;
        while let Some(object) = pending.pop() {
            if self.has(object) {
                continue;
            }
            self.marks[object as usize] = self.now;
            size += self.objects.bytes(object).len();
            pending.extend(self.objects.offsets_of(object).iter().map(|link| link[3]));
        }
        size
    }
}

/// Whether an object can be reached from itself.
pub fn reaches_itself(objects: Objects, object: u32) -> bool {
    let mut seen = Seen::nothing(objects);
    seen.count(objects.offsets_of(object));
    seen.has(object)
}
