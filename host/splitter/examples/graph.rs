//! A packer with a graph of its own. Where it called the crate's two functions it calls the proved ones.
//!
//! ```text
//! - use skera::graph::{markbasepos_graph::split_markbase_pos, pairpos_graph::split_pairpos};
//! + use splitter::{split_graph, split_marks_graph, Edition};
//!
//!   let new_tables = match lookup_type {
//! -     2 => split_pairpos(&mut graph, subtable)?,
//! -     4 => split_markbase_pos(&mut graph, subtable)?,
//! +     2 => split_graph(&mut graph, subtable, Edition::First)?,
//! +     4 => split_marks_graph(&mut graph, subtable, Edition::First)?,
//!       _ => Vec::new(),
//!   };
//! ```
//!
//! Beside these two lines it implements [`ObjectGraph`] for its graph. The first edition of the rule cuts as
//! the crate does; a packer that need not keep to what it made before takes the second.

use splitter::{split_graph, split_marks_graph, Edition, ObjectGraph, Refusal};
use std::collections::BTreeMap;

/// The packer's graph: vertices with bytes, and links by their positions.
#[derive(Default)]
struct Graph {
    vertices: Vec<Vertex>,
}

#[derive(Default)]
struct Vertex {
    data: Vec<u8>,
    real_links: BTreeMap<u32, usize>,
}

impl ObjectGraph for Graph {
    type Id = usize;

    fn bytes(&self, vertex: usize) -> &[u8] {
        &self.vertices[vertex].data
    }

    fn links(&self, vertex: usize) -> Vec<(u32, usize)> {
        let links = self.vertices[vertex].real_links.iter();
        links.map(|(&position, &child)| (position, child)).collect()
    }

    fn add_object(&mut self, bytes: &[u8]) -> usize {
        self.vertices.push(Vertex {
            data: bytes.to_vec(),
            ..Vertex::default()
        });
        self.vertices.len() - 1
    }

    fn set_links(&mut self, vertex: usize, links: &[(u32, usize)]) {
        self.vertices[vertex].real_links = links.iter().copied().collect();
    }

    fn shorten(&mut self, vertex: usize, bytes: &[u8]) {
        self.vertices[vertex].data = bytes.to_vec();
    }
}

/// Splits the subtables of a lookup, and lists the new ones behind each.
fn split_lookup(
    graph: &mut Graph,
    lookup_type: u16,
    subtables: &mut Vec<usize>,
) -> Result<(), Refusal> {
    for place in (0..subtables.len()).rev() {
        let new_tables = match lookup_type {
            2 => split_graph(graph, subtables[place], Edition::First)?,
            4 => split_marks_graph(graph, subtables[place], Edition::First)?,
            _ => Vec::new(),
        };
        subtables.splice(place + 1..place + 1, new_tables);
    }
    Ok(())
}

fn main() -> Result<(), Refusal> {
    // Five pair sets of 6,250 records, which ascend by second glyph.
    let mut graph = Graph::default();
    let table = graph.add_object(&words(&[1, 0, 4, 0, 5, 0, 0, 0, 0, 0]));
    let mut links = vec![(2, graph.add_object(&words(&[1, 5, 10, 11, 12, 13, 14])))];
    for slot in [10, 12, 14, 16, 18] {
        let pairs = (0..6_250).flat_map(|second| [second, 100]);
        let pair_set: Vec<u16> = [6_250].into_iter().chain(pairs).collect();
        links.push((slot, graph.add_object(&words(&pair_set))));
    }
    graph.set_links(table, &links);

    let mut subtables = vec![table];
    split_lookup(&mut graph, 2, &mut subtables)?;
    for table in subtables {
        let sets = graph.links(table).len() - 1;
        println!("table {table}: {sets} pair sets");
    }
    Ok(())
}

fn words(words: &[u16]) -> Vec<u8> {
    words.iter().flat_map(|word| word.to_be_bytes()).collect()
}

#[test]
fn it_ends_well() {
    assert_eq!(main(), Ok(()));
}
