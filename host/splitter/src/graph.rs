//! Tables of a graph of the host's own.

use crate::{Edition, Kind, Link, Refusal, Scratch, Store};
use std::{collections::HashMap, hash::Hash};

/// A graph of objects with bytes, and links between them, as those have it who pack fonts.
///
/// A link stands at a position of its object, where the two bytes of the offset are, and leads to
/// another object. Links that are wider are not shown here. Links that only say in which order objects are
/// placed may be shown, by [`order_links`](Self::order_links): a split does not look at them, and leaves them
/// as they are.
pub trait ObjectGraph {
    /// What names an object.
    type Id: Copy + Eq + Hash;

    /// An object's bytes.
    fn bytes(&self, object: Self::Id) -> &[u8];

    /// The position of each of an object's links, and the object that it leads to, in any order.
    fn links(&self, object: Self::Id) -> Vec<(u32, Self::Id)>;

    /// Adds an object of these bytes, without links.
    fn add_object(&mut self, bytes: &[u8]) -> Self::Id;

    /// The objects to which an object's order-only links lead, in any order. A graph that has none, or
    /// does not show them, leaves this out.
    fn order_links(&self, _object: Self::Id) -> Vec<Self::Id> {
        Vec::new()
    }

    /// Gives an object these links, in place of those that it has. Its order-only links stay.
    fn set_links(&mut self, object: Self::Id, links: &[(u32, Self::Id)]);

    /// Gives an object these bytes, as many as it has or fewer, in place of those that it has.
    fn shorten(&mut self, object: Self::Id, bytes: &[u8]);
}

/// What a table of a graph leads to, as a store.
///
/// A host that is refused can have the store [explained](crate::explain()), or write it to a
/// [file](crate::store_file).
#[derive(Clone, Debug, PartialEq, Eq)]
pub struct GraphStore<Id> {
    /// The table, which is object 0, and all that it leads to, with the order-only links between these.
    pub store: Store,
    /// What each object of the store is in the graph.
    pub ids: Vec<Id>,
}

/// The table's number in its store.
const TABLE: u32 = 0;

impl<Id: Copy + Eq + Hash> GraphStore<Id> {
    /// A table of a graph, with all that it leads to. No order-only link leads to an object, so those that
    /// have an end elsewhere are left out; one that is there twice is taken once.
    ///
    /// # Errors
    ///
    /// [`Refusal::NoRoom`] where that is more than a store holds. [`Refusal::Unsound`] where a link does
    /// not lie within its object, or two of one object stand at one position.
    pub fn load(graph: &impl ObjectGraph<Id = Id>, table: Id) -> Result<Self, Refusal> {
        let mut store = Store::new();
        let mut ids = vec![table];
        let mut numbers = HashMap::from([(table, TABLE)]);
        let mut links = Vec::new();
        // Objects are numbered as they are met, so each comes to stand at its number.
        let mut parent = 0;
        while let Some(&object) = ids.get(parent as usize) {
            store.add_object(graph.bytes(object))?;
            for (position, child) in graph.links(object) {
                let next = ids.len() as u32;
                let child = *numbers.entry(child).or_insert_with(|| {
                    ids.push(child);
                    next
                });
                links.push(Link::offset(parent, position, child));
            }
            parent += 1;
        }
        links.extend(order_links(graph, &ids, &numbers));
        store.add_links(links)?;
        Ok(Self { store, ids })
    }

    /// Carries a split of the table back into the graph, from the store after it.
    fn carry_back(mut self, graph: &mut impl ObjectGraph<Id = Id>) -> Vec<Id> {
        let view = self.store.view();
        let old = self.ids.len() as u32;
        let [_, objects, _] = view.counts();
        let bytes = |object| view.object(object).unwrap_or_default();
        for object in old..objects {
            self.ids.push(graph.add_object(bytes(object)));
        }
        graph.shorten(self.ids[TABLE as usize], bytes(TABLE));
        for object in [TABLE].into_iter().chain(old..objects) {
            let links = view.offsets_of(object);
            let links = links.map(|link| (link.position, self.ids[link.child as usize]));
            let links: Vec<(u32, Id)> = links.collect();
            graph.set_links(self.ids[object as usize], &links);
        }
        self.ids
    }
}

/// The order-only links between these objects of a graph, by their numbers, each once.
fn order_links<Id: Copy + Eq + Hash>(
    graph: &impl ObjectGraph<Id = Id>,
    ids: &[Id],
    numbers: &HashMap<Id, u32>,
) -> Vec<Link> {
    let links = (0..).zip(ids).flat_map(|(parent, &object)| {
        let children = graph.order_links(object).into_iter();
        let numbered = children.filter_map(|child| numbers.get(&child));
        numbered.map(move |&child| Link::order_only(parent, child))
    });
    let mut links: Vec<Link> = links.collect();
    links.sort_unstable();
    links.dedup();
    links
}

/// Splits a PairPos table of a graph, and gives the new tables in order.
///
/// It is [`Kind::split_graph`] of [`Kind::Pairs`].
///
/// # Errors
///
/// Those of [`Kind::split_graph`].
pub fn split_graph<G: ObjectGraph>(
    graph: &mut G,
    table: G::Id,
    edition: Edition,
) -> Result<Vec<G::Id>, Refusal> {
    Kind::Pairs.split_graph(graph, table, edition, &mut Scratch::new())
}

/// Splits a MarkBasePos table of a graph, and gives the new tables in order.
///
/// It is [`Kind::split_graph`] of [`Kind::Marks`].
///
/// # Errors
///
/// Those of [`Kind::split_graph`].
pub fn split_marks_graph<G: ObjectGraph>(
    graph: &mut G,
    table: G::Id,
    edition: Edition,
) -> Result<Vec<G::Id>, Refusal> {
    Kind::Marks.split_graph(graph, table, edition, &mut Scratch::new())
}

impl Kind {
    /// Splits a table of this kind in a graph, and gives the new tables in order.
    ///
    /// The table and all that it leads to are filled into a store, the proved function splits it there,
    /// and what came of it is carried back: new objects are added, and the table is shortened and gets
    /// other links. Nothing else of the graph changes, order-only links neither, and nothing at all where
    /// there are no new tables.
    ///
    /// # Errors
    ///
    /// Those of [`GraphStore::load`] and of [`Kind::split`]. Nothing has changed.
    pub fn split_graph<G: ObjectGraph>(
        self,
        graph: &mut G,
        table: G::Id,
        edition: Edition,
        scratch: &mut Scratch,
    ) -> Result<Vec<G::Id>, Refusal> {
        let mut loaded = GraphStore::load(graph, table)?;
        let new_tables = self.split(&mut loaded.store, TABLE, edition, scratch)?;
        if new_tables.is_empty() {
            return Ok(Vec::new());
        }
        let ids = loaded.carry_back(graph);
        let new_tables = new_tables.into_iter().map(|table| ids[table as usize]);
        Ok(new_tables.collect())
    }
}
