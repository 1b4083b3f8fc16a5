//! The store that owns its buffers.

mod lent;
mod link;

pub use lent::{StoreMut, StoreRef};
pub use link::{Link, LinkKind};

use crate::Refusal;

/// Data bytes, object rows and link rows.
#[derive(Clone, Copy, Debug, Default, PartialEq, Eq, Hash)]
pub struct Room {
    /// Bytes.
    pub data: usize,
    /// Object rows.
    pub objects: usize,
    /// Link rows.
    pub links: usize,
}

impl Room {
    /// The most that a store has in use.
    pub const MOST: Self = Self {
        data: 16_777_216,
        objects: 65_536,
        links: 262_144,
    };
}

/// Objects with their bytes, and the links between them, in buffers of its own.
///
/// It is sound at all times: what would make it unsound is refused. Its buffers may be longer than
/// what is in use; the rest is [room](Self::room) for a split.
///
/// ```
/// use splitter::{Refusal, Store};
///
/// let mut store = Store::new();
/// let table = store.add_object(&[0, 1, 0, 0, 0, 4, 0, 0, 0, 0])?;
/// let coverage = store.add_object(&[0, 1, 0, 0])?;
/// store.add_link(table, 2, coverage)?;
///
/// assert_eq!(store.view().child(table, 2), Some(coverage));
/// assert_eq!(store.add_link(table, 9, coverage), Err(Refusal::Unsound));
/// # Ok::<(), Refusal>(())
/// ```
#[derive(Clone, Debug, Default, PartialEq, Eq)]
pub struct Store {
    data: Vec<u8>,
    objects: Vec<u32>,
    links: Vec<u32>,
    counts: [u32; 3],
}

impl Store {
    /// A store of nothing.
    pub const fn new() -> Self {
        Self {
            data: Vec::new(),
            objects: Vec::new(),
            links: Vec::new(),
            counts: [0; 3],
        }
    }

    /// A store of these buffers: data bytes, flat rows of head and tail, flat rows of parent,
    /// position, width, child and kind, and how many of each are in use.
    ///
    /// # Errors
    ///
    /// [`Refusal::Unsound`].
    pub fn from_parts(
        data: Vec<u8>,
        objects: Vec<u32>,
        links: Vec<u32>,
        counts: [u32; 3],
    ) -> Result<Self, Refusal> {
        match StoreRef::new(&data, &objects, &links, &counts).is_sound() {
            true => Ok(Self {
                data,
                objects,
                links,
                counts,
            }),
            false => Err(Refusal::Unsound),
        }
    }

    /// The buffers, as [`from_parts`](Self::from_parts) takes them.
    pub fn into_parts(self) -> (Vec<u8>, Vec<u32>, Vec<u32>, [u32; 3]) {
        (self.data, self.objects, self.links, self.counts)
    }

    /// Adds an object behind all others, and gives its number.
    ///
    /// # Errors
    ///
    /// [`Refusal::NoRoom`] where the store is at its maxima.
    pub fn add_object(&mut self, bytes: &[u8]) -> Result<u32, Refusal> {
        let [head, object, links] = self.counts;
        let tail = head as usize + bytes.len();
        if tail > Room::MOST.data || object as usize == Room::MOST.objects {
            return Err(Refusal::NoRoom);
        }
        let tail = tail as u32;
        write(&mut self.data, head as usize, bytes);
        write(&mut self.objects, 2 * object as usize, &[head, tail]);
        self.counts = [tail, object + 1, links];
        Ok(object)
    }

    /// Adds an offset from a position of one object, its parent, to another, in its place among the rows.
    ///
    /// # Errors
    ///
    /// [`Refusal::Unsound`] where an object is not in use, where the two bytes at the position do not
    /// lie within the parent, or where an offset stands there. [`Refusal::NoRoom`] where the store is at
    /// its maxima.
    pub fn add_link(&mut self, parent: u32, position: u32, child: u32) -> Result<(), Refusal> {
        self.add(Link::offset(parent, position, child))
    }

    /// Adds an order-only link from one object, its parent, to another or to itself, in its place among the
    /// rows: it says in which order the two are placed, and nothing follows it.
    ///
    /// ```
    /// use splitter::{Reach, Refusal, Store};
    ///
    /// let mut store = Store::new();
    /// let [a, b] = [store.add_object(&[0; 4])?, store.add_object(&[0; 6])?];
    /// store.add_order_link(a, b)?;
    ///
    /// assert!(store.view().orders_of(a).eq([b]));
    /// assert_eq!(Reach::new(store.view()).add(a), 4);
    /// assert_eq!(store.add_order_link(a, b), Err(Refusal::Unsound));
    /// # Ok::<(), Refusal>(())
    /// ```
    ///
    /// # Errors
    ///
    /// [`Refusal::Unsound`] where an object is not in use, or where this link is there already.
    /// [`Refusal::NoRoom`] where the store is at its maxima.
    pub fn add_order_link(&mut self, parent: u32, child: u32) -> Result<(), Refusal> {
        self.add(Link::order_only(parent, child))
    }

    fn add(&mut self, link: Link) -> Result<(), Refusal> {
        let (Err(place), true) = (self.view().find_link(link), self.fits(&link)) else {
            return Err(Refusal::Unsound);
        };
        let count = self.counts[2] as usize;
        if count == Room::MOST.links {
            return Err(Refusal::NoRoom);
        }
        let [start, end] = [place, count].map(|row| Link::NUMBERS * row);
        write(&mut self.links, end, &link.row());
        self.links[start..end + Link::NUMBERS].rotate_right(Link::NUMBERS);
        self.counts[2] += 1;
        Ok(())
    }

    /// Adds links of both kinds in any order, all or none.
    ///
    /// It sorts once: for many links that do not come in order it is quicker than one by one.
    ///
    /// # Errors
    ///
    /// As [`add_link`](Self::add_link) and [`add_order_link`](Self::add_order_link).
    /// [`Refusal::Unsound`] also where an order-only link has a position, or a link is of neither kind.
    pub fn add_links(&mut self, links: impl IntoIterator<Item = Link>) -> Result<(), Refusal> {
        let mut all: Vec<Link> = self.view().links().collect();
        for link in links {
            if !self.fits(&link) {
                return Err(Refusal::Unsound);
            }
            all.push(link);
        }
        all.sort_unstable();
        if all.windows(2).any(|two| two[0].place() == two[1].place()) {
            return Err(Refusal::Unsound);
        }
        if all.len() > Room::MOST.links {
            return Err(Refusal::NoRoom);
        }
        let rows: Vec<u32> = all.iter().flat_map(|link| link.row()).collect();
        self.counts[2] = all.len() as u32;
        write(&mut self.links, 0, &rows);
        Ok(())
    }

    /// Whether a link names objects in use and, an offset, lies within its parent.
    fn fits(&self, link: &Link) -> bool {
        let parent = self.view().object(link.parent);
        let stands = |bytes: &[u8]| match link.kind {
            LinkKind::Offset => link.position as usize + 2 <= bytes.len(),
            LinkKind::OrderOnly => link.position == 0,
            LinkKind::Unknown(_) => false,
        };
        link.child < self.counts[1] && parent.is_some_and(stands)
    }

    /// The room behind what is in use, in whole rows, up to the maxima.
    pub fn room(&self) -> Room {
        let [data, objects, links] = self.view().lent();
        let used = self.counts.map(|count| count as usize);
        Room {
            data: data.min(Room::MOST.data) - used[0],
            objects: objects.min(Room::MOST.objects) - used[1],
            links: links.min(Room::MOST.links) - used[2],
        }
    }

    /// Makes the room behind what is in use exactly this, or up to the maxima where it is more.
    ///
    /// New room is zero.
    pub fn reserve(&mut self, room: Room) {
        let [data, objects, links] = self.lengths_for(room);
        self.data.resize(data, 0);
        self.objects.resize(objects, 0);
        self.links.resize(links, 0);
    }

    /// Makes a call with at least so much room, or up to the maxima. Where it is refused, the buffers
    /// become what they were.
    pub(crate) fn with_room<T>(
        &mut self,
        room: Room,
        call: impl FnOnce(&mut Self) -> Result<T, Refusal>,
    ) -> Result<T, Refusal> {
        let before = [self.data.len(), self.objects.len(), self.links.len()];
        let [data, objects, links] = self.lengths_for(room);
        self.data.resize(data.max(before[0]), 0);
        self.objects.resize(objects.max(before[1]), 0);
        self.links.resize(links.max(before[2]), 0);
        let answer = call(self);
        if answer.is_err() {
            self.data.truncate(before[0]);
            self.objects.truncate(before[1]);
            self.links.truncate(before[2]);
        }
        answer
    }

    /// How long the buffers are with so much room, or up to the maxima.
    fn lengths_for(&self, room: Room) -> [usize; 3] {
        let [data, objects, links] = self.counts.map(|count| count as usize);
        let length = |used: usize, room: usize, most: usize| used.saturating_add(room).min(most);
        [
            length(data, room.data, Room::MOST.data),
            2 * length(objects, room.objects, Room::MOST.objects),
            Link::NUMBERS * length(links, room.links, Room::MOST.links),
        ]
    }

    /// The store, to be read.
    pub fn view(&self) -> StoreRef<'_> {
        StoreRef::new(&self.data, &self.objects, &self.links, &self.counts)
    }

    /// The store as it is lent to a split, with the room that it has.
    pub fn view_mut(&mut self) -> StoreMut<'_> {
        StoreMut::new(
            &mut self.data,
            &mut self.objects,
            &mut self.links,
            &mut self.counts,
        )
    }
}

/// Writes from a place on, over room and past the end.
fn write<N: Copy>(numbers: &mut Vec<N>, place: usize, new: &[N]) {
    let (over, past) = new.split_at(new.len().min(numbers.len() - place));
    numbers[place..place + over.len()].copy_from_slice(over);
    numbers.extend_from_slice(past);
}

impl<'a> From<&'a Store> for StoreRef<'a> {
    fn from(store: &'a Store) -> Self {
        store.view()
    }
}

impl<'a> From<&'a mut Store> for StoreMut<'a> {
    fn from(store: &'a mut Store) -> Self {
        store.view_mut()
    }
}
