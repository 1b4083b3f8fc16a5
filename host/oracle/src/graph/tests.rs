//! The walk and the changes of the stand-in graph.

use super::*;

/// A graph of objects of these lengths, with these links; positions do not matter here.
fn graph(lengths: &[usize], links: &[(ObjIdx, ObjIdx)]) -> Graph {
    let mut graph = Graph::default();
    for &length in lengths {
        graph.new_vertex(length).unwrap();
    }
    for (position, &(parent, child)) in links.iter().enumerate() {
        graph
            .add_parent_child_link(parent, child, LinkWidth::Two, position as u32, false)
            .unwrap();
    }
    graph
}

#[test]
fn a_shared_object_counts_once() {
    let graph = graph(&[1, 10, 100, 1000], &[(0, 1), (0, 2), (1, 3), (2, 3)]);
    let mut visited = IntSet::empty();
    assert_eq!(graph.find_subgraph_size(1, &mut visited, 0), Ok(1010));
    assert_eq!(graph.find_subgraph_size(2, &mut visited, 0), Ok(100));
    assert_eq!(graph.find_subgraph_size(2, &mut visited, 0), Ok(0));
    visited.clear();
    assert_eq!(graph.find_subgraph_size(0, &mut visited, 0), Ok(1111));
}

#[test]
fn a_loop_counts_each_object_once() {
    let graph = graph(&[1, 10, 100], &[(0, 1), (1, 2), (2, 0), (2, 2)]);
    for start in 0..3 {
        assert_eq!(
            graph.find_subgraph_size(start, &mut IntSet::empty(), 0),
            Ok(111)
        );
    }
}

#[test]
fn a_chain_of_all_objects_is_walked() {
    let links: Vec<_> = (1..65_536).map(|child| (child - 1, child)).collect();
    let graph = graph(&[1; 65_536], &links);
    let mut visited = IntSet::empty();
    assert_eq!(
        graph.find_subgraph_size(0, &mut visited, u16::MAX),
        Ok(65_536)
    );
    assert_eq!(visited.len(), 65_536);
}

#[test]
fn an_unshared_child_is_a_copy_and_the_child_stays() {
    let mut graph = graph(&[0, 4, 6], &[(0, 1), (1, 2)]);
    graph.mut_vertex_data(1).unwrap().fill(7);
    let copy = graph.unshared_child(0, 1, 0).unwrap();
    assert_eq!(graph.vertex_data(copy), Some(&[7; 4][..]));
    assert!(graph.links(0).eq([(0, copy)]));
    assert!(graph.links(copy).eq([(1, 2)]));
    assert!(graph.links(1).eq([(1, 2)]));

    graph.update_vertex_data(copy, &[9]).unwrap();
    assert_eq!(graph.vertex_data(copy), Some(&[9][..]));
    assert_eq!(graph.links(copy).count(), 0);
    assert_eq!(graph.vertex_data(1), Some(&[7; 4][..]));
    assert_eq!(graph.data().len(), 11);
}

#[test]
fn an_absent_link_moves_nothing() {
    let mut graph = graph(&[0, 0, 0], &[(0, 2)]);
    assert_eq!(graph.move_child(0, 5, 1, 5, 2), Ok(false));
    assert_eq!(graph.links(1).count(), 0);
    assert_eq!(graph.move_child(0, 0, 1, 5, 2), Ok(true));
    assert!(graph.links(1).eq([(5, 2)]));
    assert_eq!(graph.links(0).count(), 0);
}
