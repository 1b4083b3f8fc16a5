//! A graph of the host's own that shows order-only links.

mod common;

use common::{cut_marks, w7};
use splitter::{Edition, GraphStore, Kind, Link, ObjectGraph, Refusal, Scratch, Store};

/// Objects with bytes, links and order-only links, and names that are no numbers of a store.
#[derive(Clone, Debug, Default, PartialEq, Eq)]
struct Graph {
    objects: Vec<Object>,
}

#[derive(Clone, Debug, Default, PartialEq, Eq)]
struct Object {
    bytes: Vec<u8>,
    links: Vec<(u32, Name)>,
    orders: Vec<Name>,
}

#[derive(Clone, Copy, Debug, PartialEq, Eq, Hash)]
struct Name(usize);

impl ObjectGraph for Graph {
    type Id = Name;

    fn bytes(&self, Name(object): Name) -> &[u8] {
        &self.objects[object].bytes
    }

    fn links(&self, Name(object): Name) -> Vec<(u32, Name)> {
        self.objects[object].links.clone()
    }

    fn order_links(&self, Name(object): Name) -> Vec<Name> {
        self.objects[object].orders.clone()
    }

    fn add_object(&mut self, bytes: &[u8]) -> Name {
        self.objects.push(Object {
            bytes: bytes.to_vec(),
            ..Object::default()
        });
        Name(self.objects.len() - 1)
    }

    fn set_links(&mut self, Name(object): Name, links: &[(u32, Name)]) {
        self.objects[object].links = links.to_vec();
    }

    fn shorten(&mut self, Name(object): Name, bytes: &[u8]) {
        self.objects[object].bytes = bytes.to_vec();
    }
}

impl Graph {
    /// The objects of a store, the last one first, and before them one more, to which nothing leads.
    fn of(store: &Store) -> Self {
        let view = store.view();
        let [_, objects, _] = view.counts();
        let mut graph = Self::default();
        graph.add_object(&[1, 2, 3]);
        for object in (0..objects).rev() {
            let bytes = view.object(object).unwrap();
            let name = graph.add_object(bytes);
            let links = view.offsets_of(object);
            let links = links.map(|link| (link.position, Self::name(store, link.child)));
            graph.set_links(name, &links.collect::<Vec<_>>());
        }
        graph
    }

    fn name(store: &Store, object: u32) -> Name {
        Name((store.view().counts()[1] - object) as usize)
    }

    /// The same with order-only links from everything to everything, each twice.
    fn with_orders(mut self) -> Self {
        let names: Vec<Name> = (0..self.objects.len()).map(Name).collect();
        for object in &mut self.objects {
            object.orders = [&names[..], &names].concat();
        }
        self
    }
}

/// Those between objects that are loaded, each once. None brings another object.
#[test]
fn order_only_links_are_loaded() {
    let (store, _) = w7();
    let graph = Graph::of(&store);
    let table = Graph::name(&store, 0);
    let plain = GraphStore::load(&graph, table).unwrap();
    assert_eq!(plain.store, store);
    let ordered = GraphStore::load(&graph.with_orders(), table).unwrap();
    assert_eq!(ordered.ids, plain.ids);
    let orders = (0..5).flat_map(|parent| (0..5).map(move |child| Link::order_only(parent, child)));
    let mut links: Vec<Link> = store.view().links().chain(orders).collect();
    links.sort();
    assert!(ordered.store.view().links().eq(links));
}

/// Whatever they lead to, the graph is split as without them, and they stay.
#[test]
fn splits_leave_order_only_links() {
    let mut scratch = Scratch::new();
    for (kind, store) in [(Kind::Pairs, w7().0), (Kind::Marks, cut_marks().0)] {
        for edition in Edition::ALL {
            let table = Graph::name(&store, 0);
            let mut split = |mut graph: Graph| {
                let new_tables = kind.split_graph(&mut graph, table, edition, &mut scratch);
                (graph, new_tables.unwrap())
            };
            let before = Graph::of(&store).with_orders();
            let (plain, new_tables) = split(Graph::of(&store));
            let (ordered, again) = split(before.clone());
            assert_eq!(again, new_tables);
            assert!(!new_tables.is_empty());
            let mut expected = plain;
            for (object, old) in expected.objects.iter_mut().zip(&before.objects) {
                object.orders = old.orders.clone();
            }
            assert_eq!(ordered, expected);
        }
    }
}

/// More order-only links than a store has room for, between 513 objects.
#[test]
fn links_that_no_store_holds() {
    let mut graph = Graph::default();
    let objects: Vec<Name> = (0..513).map(|_| graph.add_object(&[0; 2])).collect();
    for pair in objects.windows(2) {
        graph.set_links(pair[0], &[(0, pair[1])]);
    }
    assert!(GraphStore::load(&graph, objects[0]).is_ok());
    let refused = GraphStore::load(&graph.with_orders(), objects[0]);
    assert_eq!(refused.err(), Some(Refusal::NoRoom));
}
