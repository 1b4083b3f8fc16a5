//! A store split afresh, and where it was cut.

use crate::{
    graph::{Graph, RepackError},
    serialize::ObjIdx,
    types::Scalar,
    Store,
};

/// What a split gave.
#[derive(Clone, Debug)]
pub struct Split {
    /// The new tables, in the order of their items.
    pub new_tables: Vec<ObjIdx>,
    /// The first item of each new table: pair set, class-1 row or mark class.
    pub cuts: Vec<u16>,
    /// The graph after the split.
    pub graph: Graph,
}

/// Splits a PairPos table of a store. Where nothing is split there are no cuts.
pub fn split(store: &Store, table_idx: ObjIdx) -> Result<Split, RepackError> {
    let mut graph = Graph::load(store)?;
    let new_tables = graph.split_pairpos(table_idx)?;
    let count_pos = match graph.vertex_data(table_idx).and_then(u16::read) {
        Some(2) => 12,
        _ => 8,
    };
    Ok(Split::new(graph, table_idx, new_tables, count_pos))
}

/// Splits a MarkBasePos table of a store. Where nothing is split there are no cuts.
pub fn split_markbase(store: &Store, table_idx: ObjIdx) -> Result<Split, RepackError> {
    let mut graph = Graph::load(store)?;
    let new_tables = graph.split_markbase_pos(table_idx)?;
    Ok(Split::new(graph, table_idx, new_tables, 6))
}

impl Split {
    /// A table is cut where the items of the tables before it end.
    fn new(graph: Graph, kept: ObjIdx, new_tables: Vec<ObjIdx>, count_pos: usize) -> Self {
        let count = |idx| u16::read(graph.vertex_data(idx)?.get(count_pos..)?);
        let ends = std::iter::once(&kept)
            .chain(&new_tables)
            .scan(0, |end, &idx| {
                *end += count(idx)?;
                Some(*end)
            });
        Self {
            cuts: ends.take(new_tables.len()).collect(),
            new_tables,
            graph,
        }
    }
}
