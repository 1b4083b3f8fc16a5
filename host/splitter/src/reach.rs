//! What can be reached along offsets.

use crate::StoreRef;

/// The objects that were reached so far.
///
/// ```
/// use splitter::{Reach, Refusal, Store};
///
/// let mut store = Store::new();
/// let [a, b, c] = [store.add_object(&[0; 4])?, store.add_object(&[0; 6])?, store.add_object(&[0; 5])?];
/// store.add_link(a, 0, c)?;
/// store.add_link(b, 0, c)?;
///
/// let mut reach = Reach::new(store.view());
/// assert_eq!([reach.add(a), reach.add(b), reach.add(c)], [9, 6, 0]);
/// # Ok::<(), Refusal>(())
/// ```
#[derive(Clone, Debug)]
pub struct Reach<'a> {
    store: StoreRef<'a>,
    /// When each object was last reached.
    times: Vec<u32>,
    now: u32,
}

impl<'a> Reach<'a> {
    /// Nothing was reached.
    pub fn new(store: StoreRef<'a>) -> Self {
        Self {
            store,
            times: vec![0; store.object_rows().len()],
            now: 1,
        }
    }

    /// Forgets what was reached.
    pub fn forget(&mut self) {
        self.now += 1;
    }

    /// Goes to an object and all that it leads to, along offsets. Gives the bytes of what was not reached
    /// before.
    pub fn add(&mut self, object: u32) -> usize {
        let mut bytes = 0;
        let mut next = vec![object];
        while let Some(object) = next.pop() {
            let Some(time) = self.times.get_mut(object as usize) else {
                continue;
            };
            if std::mem::replace(time, self.now) != self.now {
                bytes += self.store.object(object).map_or(0, <[u8]>::len);
                next.extend(self.store.offsets_of(object).map(|link| link.child));
            }
        }
        bytes
    }
}
