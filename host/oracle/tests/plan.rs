//! Plans: splits that end before they write.

#[path = "helpers/marks.rs"]
mod marks;
#[path = "helpers/tables.rs"]
mod tables;

use marks::{push_anchor, Marks, BASE_ARRAY};
use oracle::{write, Graph, ObjIdx, RepackError, Store};
use tables::{format1, Format2, TABLE};

type Plan = fn(&mut Graph, ObjIdx) -> Result<bool, RepackError>;
type Split = fn(&mut Graph, ObjIdx) -> Result<Vec<ObjIdx>, RepackError>;

/// A plan says whether there are cuts, and leaves the graph as it was; a split then gives as many new
/// tables.
fn assert_planned_by(plan: Plan, split: Split, store: &Store, new_tables: usize) {
    let mut graph = Graph::load(store).unwrap();
    let links = |graph: &Graph| graph.links(TABLE).collect::<Vec<_>>();
    let before = (graph.data().to_vec(), links(&graph));
    assert_eq!(plan(&mut graph, TABLE), Ok(new_tables > 0));
    assert_eq!((graph.data().to_vec(), links(&graph)), before);
    assert_eq!(graph.num_vertices(), store.counts[1] as usize);
    assert_eq!(split(&mut graph, TABLE).unwrap().len(), new_tables);
}

fn assert_planned(store: &Store, new_tables: usize) {
    assert_planned_by(Graph::plan_pairpos, Graph::split_pairpos, store, new_tables);
}

#[test]
fn a_plan_changes_nothing() {
    assert_planned(&format1(&[10, 20, 30], &[30_000; 3]), 1);
    assert_planned(&format1(&[10, 20], &[30_000; 2]), 0);
    let rows = |rows| Format2 {
        formats: [4, 0],
        rows,
        columns: 200,
    };
    let classes: Vec<(u16, u16)> = (0..170).map(|class| (100 + class, class)).collect();
    assert_planned(&rows(170).store(&classes, &write::class_def(&classes)), 1);
    assert_planned(&rows(2).store(&classes, &write::class_def(&classes)), 0);
}

#[test]
fn a_plan_for_marks_changes_nothing() {
    let (plan, split) = (Graph::plan_markbase_pos, Graph::split_markbase_pos);
    let mut store = Marks::new(2, &[], 1).store();
    assert_planned_by(plan, split, &store, 0);
    push_anchor(&mut store, BASE_ARRAY, 4, 65_510);
    assert_planned_by(plan, split, &store, 1);
}

/// A copy with room is a copy.
#[test]
fn room_changes_nothing() {
    let store = format1(&[10, 20, 30], &[30_000; 3]);
    let graph = Graph::load(&store).unwrap();
    let mut copy = graph.with_room(1_000, 10);
    assert_eq!(copy.data(), graph.data());
    assert_eq!(copy.num_vertices(), graph.num_vertices());
    assert!(copy.links(TABLE).eq(graph.links(TABLE)));
    assert_eq!(copy.split_pairpos(TABLE), Ok(vec![5]));
}
