//! The rows of a store, and what the stand-in graph takes of them.

use oracle::{link, Graph, Store};

/// Three objects, with links of both kinds pushed in no order.
fn store() -> Store {
    let mut store = Store::default();
    for len in [4, 6, 0] {
        store.push_object(&vec![0; len]);
    }
    store.push_order_link(0, 2);
    store.push_link(1, 0, 2);
    store.push_order_link(0, 0);
    store.push_link(0, 2, 1);
    store.push_order_link(2, 1);
    store.push_link(0, 0, 2);
    store.push_order_link(0, 1);
    store
}

#[test]
fn rows_stand_in_order_of_parent_kind_position_and_child() {
    let store = store();
    let rows = [
        link::offset(0, 0, 2),
        link::offset(0, 2, 1),
        link::order_only(0, 0),
        link::order_only(0, 1),
        link::order_only(0, 2),
        link::offset(1, 0, 2),
        link::order_only(2, 1),
    ];
    assert_eq!(store.links_in_use(), rows);
}

/// The text knows no order-only links: it follows offsets alone.
#[test]
fn the_graph_has_offsets_alone() {
    let graph = Graph::load(&store()).unwrap();
    assert!(graph.links(0).eq([(0, 2), (2, 1)]));
    assert!(graph.links(1).eq([(0, 2)]));
    assert_eq!(graph.links(2).count(), 0);
}
