//! A table of a font as a store, object for object.

use super::{bytes::Bytes, error::FontError, lengths::Length};
use crate::{Link, Refusal, Room, Store};
use std::{
    cell::Cell,
    collections::{BTreeMap, HashMap},
};

/// How much may still be loaded. In a crafted font a few bytes can be parts of a great many tables.
pub(super) struct Budget(Cell<usize>);

impl Budget {
    /// Enough for any one table, which its store limits.
    pub const fn for_table() -> Self {
        Self(Cell::new(usize::MAX))
    }

    /// Enough for a font of so many bytes: each is loaded several times over, and small ones more often.
    pub const fn for_font(len: usize) -> Self {
        Self(Cell::new((64 << 20) + 16 * len))
    }

    fn spend(&self, cost: usize) -> Result<(), FontError> {
        let left = self.0.get().checked_sub(cost);
        self.0.set(left.unwrap_or(0));
        left.map(drop).ok_or(FontError::TooMuch)
    }
}

/// A store in the making. What is at one place in the font is one object.
pub(super) struct Loader<'a> {
    pub gpos: Bytes<'a>,
    store: Store,
    /// The objects by where they start and how long they are.
    objects: HashMap<(usize, usize), u32>,
    /// The children by parent and position.
    links: BTreeMap<(u32, u32), u32>,
    budget: &'a Budget,
}

/// An object, and where in the GPOS table it starts.
#[derive(Clone, Copy)]
pub(super) struct Placed {
    pub object: u32,
    pub start: usize,
}

impl<'a> Loader<'a> {
    pub fn new(gpos: Bytes<'a>, budget: &'a Budget) -> Self {
        Self {
            gpos,
            store: Store::new(),
            objects: HashMap::new(),
            links: BTreeMap::new(),
            budget,
        }
    }

    /// The store of all that was loaded.
    pub fn finish(self) -> Result<Store, FontError> {
        let Self {
            mut store, links, ..
        } = self;
        let links = links.into_iter();
        store.add_links(
            links.map(|((parent, position), child)| Link::offset(parent, position, child)),
        )?;
        Ok(store)
    }

    /// Links the part whose offset stands at a position, if there is one.
    pub fn link_part(
        &mut self,
        parent: Placed,
        position: usize,
        length: Length,
        what: &'static str,
    ) -> Result<Option<Placed>, FontError> {
        let Some(start) = self.offset(parent, position, what)? else {
            return Ok(None);
        };
        let len = length(self.gpos, start)?;
        let child = self.object(start, len, what)?;
        self.link(parent, position, child)?;
        Ok(Some(child))
    }

    /// Where the offset at a position leads to. An offset of 0 leads nowhere.
    pub fn offset(
        &self,
        parent: Placed,
        position: usize,
        what: &'static str,
    ) -> Result<Option<usize>, FontError> {
        let offset = self.gpos.u16(parent.start + position, what)?;
        Ok((offset != 0).then_some(parent.start + offset))
    }

    /// The object of these bytes, added if it is new.
    pub fn object(
        &mut self,
        start: usize,
        len: usize,
        what: &'static str,
    ) -> Result<Placed, FontError> {
        let bytes = self.gpos.get(start, len, what)?;
        let object = match self.objects.get(&(start, len)) {
            Some(&object) => object,
            None => {
                self.budget.spend(8 + len)?;
                let object = self.store.add_object(bytes)?;
                self.objects.insert((start, len), object);
                object
            }
        };
        Ok(Placed { object, start })
    }

    pub fn link(
        &mut self,
        parent: Placed,
        position: usize,
        child: Placed,
    ) -> Result<(), FontError> {
        if self.links.len() > Room::MOST.links {
            return Err(Refusal::NoRoom.into());
        }
        self.budget.spend(16)?;
        let position = (parent.object, position as u32);
        self.links.entry(position).or_insert(child.object);
        Ok(())
    }
}
