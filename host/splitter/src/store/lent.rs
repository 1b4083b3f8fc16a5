//! Stores in buffers of the host's own.

use super::{Link, LinkKind};

/// A store in lent buffers, to be read. It may hold anything.
#[derive(Clone, Copy, Debug, PartialEq, Eq)]
pub struct StoreRef<'a> {
    pub(crate) data: &'a [u8],
    pub(crate) objects: &'a [u32],
    pub(crate) links: &'a [u32],
    pub(crate) counts: &'a [u32; 3],
}

impl<'a> StoreRef<'a> {
    /// Data bytes, flat rows of head and tail, flat rows of parent, position, width, child and kind, and how
    /// many of each are in use.
    pub const fn new(
        data: &'a [u8],
        objects: &'a [u32],
        links: &'a [u32],
        counts: &'a [u32; 3],
    ) -> Self {
        Self {
            data,
            objects,
            links,
            counts,
        }
    }

    /// Whether the store is sound: no call refuses it as [`Unsound`](crate::Refusal::Unsound).
    pub fn is_sound(self) -> bool {
        crate::read_pair(self, 0, 0, 0) != Err(crate::Refusal::Unsound)
    }

    /// How many data bytes, and whole rows of objects and of links, are lent.
    pub(crate) const fn lent(self) -> [usize; 3] {
        [
            self.data.len(),
            self.objects.len() / 2,
            self.links.len() / Link::NUMBERS,
        ]
    }

    /// How many data bytes, objects and links are in use.
    pub const fn counts(self) -> [u32; 3] {
        *self.counts
    }

    /// The data bytes in use.
    pub fn data(self) -> &'a [u8] {
        in_use(self.data, self.counts[0])
    }

    /// An object's bytes, if it is in use.
    pub fn object(self, number: u32) -> Option<&'a [u8]> {
        let &[head, tail] = self.object_rows().get(number as usize)?;
        self.data().get(head as usize..tail as usize)
    }

    /// All links, of both kinds, in their order.
    pub fn links(self) -> impl ExactSizeIterator<Item = Link> + 'a {
        self.link_rows().iter().map(Link::of_row)
    }

    /// The offsets of one object, in order of position.
    pub fn offsets_of(self, parent: u32) -> impl ExactSizeIterator<Item = Link> + 'a {
        self.links_of(parent, LinkKind::Offset)
    }

    /// The objects to which order-only links of one object lead, in order.
    ///
    /// ```
    /// use splitter::{Refusal, Store};
    ///
    /// let mut store = Store::new();
    /// let [a, b] = [store.add_object(&[0; 2])?, store.add_object(&[])?];
    /// store.add_link(a, 0, b)?;
    /// store.add_order_link(a, b)?;
    /// store.add_order_link(a, a)?;
    ///
    /// assert!(store.view().orders_of(a).eq([a, b]));
    /// assert_eq!(store.view().orders_of(b).len(), 0);
    /// # Ok::<(), Refusal>(())
    /// ```
    pub fn orders_of(self, parent: u32) -> impl ExactSizeIterator<Item = u32> + 'a {
        let links = self.links_of(parent, LinkKind::OrderOnly);
        links.map(|link| link.child)
    }

    /// The links of one object that are of one kind.
    fn links_of(self, parent: u32, kind: LinkKind) -> impl ExactSizeIterator<Item = Link> + 'a {
        let (rows, these) = (self.link_rows(), [parent, kind.number()]);
        let start = rows.partition_point(|&[parent, .., kind]| [parent, kind] < these);
        let len = rows[start..].partition_point(|&[parent, .., kind]| [parent, kind] == these);
        rows[start..start + len].iter().map(Link::of_row)
    }

    /// The object that an offset leads to.
    pub fn child(self, parent: u32, position: u32) -> Option<u32> {
        let place = self.find_link(Link::offset(parent, position, 0)).ok()?;
        Some(Link::of_row(&self.link_rows()[place]).child)
    }

    /// The row of the link that stands where this one does, or the row where it would stand.
    pub(super) fn find_link(self, link: Link) -> Result<usize, usize> {
        let rows = self.link_rows();
        rows.binary_search_by_key(&link.place(), |row| Link::of_row(row).place())
    }

    /// The rows of objects in use: head and tail.
    pub fn object_rows(self) -> &'a [[u32; 2]] {
        in_use(self.objects.as_chunks().0, self.counts[1])
    }

    /// The rows of links in use: parent, position, width, child and kind.
    pub fn link_rows(self) -> &'a [[u32; Link::NUMBERS]] {
        in_use(self.links.as_chunks().0, self.counts[2])
    }
}

/// What is in use, or as much as there is.
fn in_use<N>(rows: &[N], count: u32) -> &[N] {
    &rows[..rows.len().min(count as usize)]
}

/// A store in lent buffers, to be split. It may hold anything.
///
/// What the buffers have beyond what is in use is room.
#[derive(Debug, PartialEq, Eq)]
pub struct StoreMut<'a> {
    pub(crate) data: &'a mut [u8],
    pub(crate) objects: &'a mut [u32],
    pub(crate) links: &'a mut [u32],
    pub(crate) counts: &'a mut [u32; 3],
}

impl<'a> StoreMut<'a> {
    /// Data bytes, flat rows of head and tail, flat rows of parent, position, width, child and kind, and how
    /// many of each are in use.
    pub const fn new(
        data: &'a mut [u8],
        objects: &'a mut [u32],
        links: &'a mut [u32],
        counts: &'a mut [u32; 3],
    ) -> Self {
        Self {
            data,
            objects,
            links,
            counts,
        }
    }

    /// The store, to be read.
    pub const fn view(&self) -> StoreRef<'_> {
        StoreRef::new(self.data, self.objects, self.links, self.counts)
    }
}

impl<'a> From<&'a StoreMut<'_>> for StoreRef<'a> {
    fn from(store: &'a StoreMut<'_>) -> Self {
        store.view()
    }
}

impl<'a> From<&'a mut StoreMut<'_>> for StoreMut<'a> {
    fn from(store: &'a mut StoreMut<'_>) -> Self {
        Self::new(store.data, store.objects, store.links, store.counts)
    }
}
