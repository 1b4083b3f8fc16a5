//! A store in the making.

use crate::Random;
use oracle::{link, Store};
use std::collections::{BTreeMap, BTreeSet};

/// Objects and links before they have their places in a store.
#[derive(Clone, Debug, Default)]
pub struct Draft {
    objects: Vec<Vec<u8>>,
    /// The child by parent and position.
    links: BTreeMap<(usize, usize), usize>,
    /// Parent and child of each order-only link.
    orders: BTreeSet<(usize, usize)>,
}

impl Draft {
    /// Adds an object.
    pub fn object(&mut self, bytes: Vec<u8>) -> usize {
        self.objects.push(bytes);
        self.objects.len() - 1
    }

    /// An object's bytes.
    pub fn bytes(&self, object: usize) -> &[u8] {
        &self.objects[object]
    }

    /// How many objects there are.
    pub fn count(&self) -> usize {
        self.objects.len()
    }

    /// Links a position of an object to another object.
    pub fn link(&mut self, parent: usize, position: usize, child: usize) {
        self.links.insert((parent, position), child);
    }

    /// Says that an object is placed after another.
    pub fn order(&mut self, parent: usize, child: usize) {
        self.orders.insert((parent, child));
    }

    /// The parent and the child of each link that is an offset.
    pub fn ends(&self) -> Vec<(usize, usize)> {
        let links = self.links.iter();
        links
            .map(|(&(parent, _), &child)| (parent, child))
            .collect()
    }

    /// The object that a position is linked to.
    pub fn child(&self, parent: usize, position: usize) -> Option<usize> {
        self.links.get(&(parent, position)).copied()
    }

    /// Links some position of an object, if it has bytes for one.
    pub fn link_anywhere(&mut self, random: &mut Random, parent: usize, child: usize) {
        if let Some(last) = self.objects[parent].len().checked_sub(2) {
            self.link(parent, random.within(0..=last), child);
        }
    }

    /// The store, with the objects in any order and gaps between them, and their numbers.
    pub fn lay_out(&self, random: &mut Random) -> (Store, Vec<u32>) {
        let mut order: Vec<usize> = (0..self.count()).collect();
        random.shuffle(&mut order);
        self.lay_out_in(order, random)
    }

    /// The store, with the objects in an order that is given and gaps between them, and their numbers.
    pub fn lay_out_in(
        &self,
        order: impl IntoIterator<Item = usize>,
        random: &mut Random,
    ) -> (Store, Vec<u32>) {
        let mut store = Store::default();
        let mut numbers = vec![0; self.count()];
        for object in order {
            leave_gap(&mut store, random);
            numbers[object] = store.push_object(&self.objects[object]) as u32;
        }
        leave_gap(&mut store, random);
        let rows = self.rows(&numbers);
        store.counts[2] = rows.len() as u32;
        store.links = rows.into_flattened();
        (store, numbers)
    }

    fn rows(&self, numbers: &[u32]) -> Vec<link::Row> {
        let offsets = self.links.iter().map(|(&(parent, position), &child)| {
            link::offset(numbers[parent], position as u32, numbers[child])
        });
        let orders = self.orders.iter();
        let orders =
            orders.map(|&(parent, child)| link::order_only(numbers[parent], numbers[child]));
        let mut rows: Vec<link::Row> = offsets.chain(orders).collect();
        rows.sort_unstable_by_key(link::rank);
        rows
    }
}

/// Bytes in use that belong to no object.
fn leave_gap(store: &mut Store, random: &mut Random) {
    if random.one_in(4) {
        let len = random.within(1..=5);
        store.data.extend(random.bytes(len));
        store.counts[0] += len as u32;
    }
}
