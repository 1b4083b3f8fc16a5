//! What the text does with MarkBasePos tables where the port does something else.
//!
//! Each fact is shown by its smallest input; the number is the port's answer to it.

#[path = "helpers/marks.rs"]
mod marks;

use marks::{push_anchor, Marks, BASE_ARRAY, BASE_COVERAGE, MARK_ARRAY, MARK_COVERAGE, TABLE};
use oracle::{link, split_markbase, write::words, Graph, ObjIdx, RepackError, Store};

/// With an anchor of this length a base makes its class, without marks, one byte too large.
const TOO_LARGE: usize = 65_510;

/// One class, no mark and one base.
fn one_base() -> Marks {
    Marks::new(1, &[], 1)
}

/// The store with an anchor for the first base that makes the first class too large.
fn with_anchor(marks: &Marks) -> Store {
    let mut store = marks.store();
    push_anchor(&mut store, BASE_ARRAY, 2, TOO_LARGE);
    store
}

fn links(graph: &Graph, object: ObjIdx) -> Vec<(u32, ObjIdx)> {
    graph.links(object).collect()
}

fn object(graph: &Graph, table: ObjIdx, position: u32) -> &[u8] {
    let mut links = graph.links(table);
    let (_, part) = links.find(|link| link.0 == position).unwrap();
    graph.vertex_data(part).unwrap()
}

fn assert_nothing_to_split(store: &Store) {
    let split = split_markbase(store, TABLE).unwrap();
    assert_eq!(split.new_tables, []);
    assert_eq!(split.graph.data(), store.data);
    assert_eq!(split.graph.num_vertices(), store.counts[1] as usize);
}

fn assert_cut_at_0(store: &Store) -> Graph {
    let split = split_markbase(store, TABLE).unwrap();
    assert_eq!(split.cuts, [0]);
    split.graph
}

/// The split fails, and so many objects are in the graph that were not there before.
fn assert_fails(store: &Store, error: RepackError, new_objects: usize) -> Graph {
    let mut graph = Graph::load(store).unwrap();
    assert_eq!(graph.split_markbase_pos(TABLE), Err(error));
    assert_eq!(graph.num_vertices(), store.counts[1] as usize + new_objects);
    let arrays = [8, 10].map(|position| object(&graph, TABLE, position).as_ptr());
    let old_arrays = [MARK_ARRAY, BASE_ARRAY].map(|array| graph.vertex_data(array).unwrap());
    assert_ne!(arrays, old_arrays.map(<[u8]>::as_ptr));
    graph
}

#[test]
fn a_class_is_cut_from_this_length_on() {
    assert_cut_at_0(&with_anchor(&one_base()));
    let mut store = one_base().store();
    push_anchor(&mut store, BASE_ARRAY, 2, TOO_LARGE - 1);
    assert_nothing_to_split(&store);
}

/// Answer 0, and nothing is split. The kept table has its format, and the new one format 1.
#[test]
fn no_format_is_asked() {
    for format in [0, 2, 0xFFFF] {
        let table = words([format, 0, 0, 1, 0, 0]);
        let marks = Marks {
            table,
            ..one_base()
        };
        let graph = assert_cut_at_0(&with_anchor(&marks));
        let kept_table = words([format, 0, 0, 0, 0, 0]);
        assert_eq!(graph.vertex_data(TABLE), Some(&kept_table[..]));
        let new_table = words([1, 0, 0, 1, 0, 0]);
        assert_eq!(graph.vertex_data(8), Some(&new_table[..]));
    }
}

/// Answer 0, and the port writes zeros: what stood at the slot of class 0 stays.
#[test]
fn a_kept_base_array_has_old_offsets() {
    let marks = Marks {
        base_array: words([1, 0xCCCC, 0xDDDD]),
        ..Marks::new(2, &[], 1)
    };
    let mut store = marks.store();
    push_anchor(&mut store, BASE_ARRAY, 4, 65_508);
    let split = split_markbase(&store, TABLE).unwrap();
    assert_eq!(split.cuts, [1]);
    assert_eq!(object(&split.graph, TABLE, 10), words([1, 0xCCCC]));
    assert_eq!(object(&split.graph, split.new_tables[0], 10), words([1, 0]));
}

/// Answer 0, and the port writes zeros. The kept array's only mark was the old one's second, and has
/// its link, but the offset of the first.
#[test]
fn a_kept_mark_array_has_old_offsets() {
    let marks = Marks {
        mark_array: words([2, 1, 0xAAAA, 0, 0xBBBB]),
        ..Marks::new(2, &[1, 0], 0)
    };
    let mut store = marks.store();
    push_anchor(&mut store, MARK_ARRAY, 4, 65_500);
    let anchor = push_anchor(&mut store, MARK_ARRAY, 8, 0);
    let split = split_markbase(&store, TABLE).unwrap();
    assert_eq!(split.cuts, [1]);
    assert_eq!(object(&split.graph, TABLE, 8), words([1, 0, 0xAAAA]));
    let (_, kept_array) = links(&split.graph, TABLE)[2];
    assert_eq!(links(&split.graph, kept_array), [(4, anchor)]);
    assert_eq!(
        object(&split.graph, split.new_tables[0], 8),
        words([1, 0, 0])
    );
}

/// Answer 3. A link at 10 needs 12 bytes, so there is none.
#[test]
fn a_table_under_12_bytes_says_nothing_to_split() {
    for len in [0, 1, 2, 11] {
        let table = one_base().table[..len].to_vec();
        let marks = Marks {
            table,
            ..one_base()
        };
        assert_nothing_to_split(&with_anchor(&marks));
    }
}

/// Answer 3. The kept table keeps the byte behind, and the new one has none.
#[test]
fn a_table_that_is_too_long_is_split() {
    let table = [one_base().table, vec![7]].concat();
    let marks = Marks {
        table,
        ..one_base()
    };
    let graph = assert_cut_at_0(&with_anchor(&marks));
    let kept_table = [words([1, 0, 0, 0, 0, 0]), vec![7]].concat();
    assert_eq!(graph.vertex_data(TABLE), Some(&kept_table[..]));
    assert_eq!(graph.vertex_data(8).unwrap().len(), 12);
}

/// Answer 4, for both coverages and both arrays.
#[test]
fn a_link_that_is_missing_says_nothing_to_split() {
    for missing in [2, 4, 8, 10] {
        let mut store = with_anchor(&one_base());
        let is_kept = |row: &&link::Row| (row[0], row[1]) != (TABLE as u32, missing);
        let kept_rows = store.links_in_use().iter().filter(is_kept);
        store.links = kept_rows.flatten().copied().collect();
        store.counts[2] -= 1;
        assert_nothing_to_split(&store);
    }
}

/// Answer 4. Arrays without bytes, of one byte, and without the record that they count.
#[test]
fn an_array_that_is_too_short_says_nothing_to_split() {
    for array in [vec![], vec![0], words([1])] {
        let mark_array = array.clone();
        let marks = Marks {
            mark_array,
            ..one_base()
        };
        assert_nothing_to_split(&with_anchor(&marks));
        let base_array = array;
        let marks = Marks {
            base_array,
            ..Marks::new(1, &[0], 0)
        };
        let mut store = marks.store();
        push_anchor(&mut store, MARK_ARRAY, 4, TOO_LARGE);
        assert_nothing_to_split(&store);
    }
}

/// Answer 4.
#[test]
fn a_mark_class_that_is_too_high_says_nothing_to_split() {
    assert_nothing_to_split(&with_anchor(&Marks::new(1, &[1], 1)));
    assert_cut_at_0(&with_anchor(&Marks::new(1, &[0], 1)));
}

/// Answer 4. As much is cut off as marks and bases go: the byte behind is kept, or another in its
/// place.
#[test]
fn an_array_that_is_too_long_is_split() {
    let mark_array = vec![0, 0, 7];
    let marks = Marks {
        mark_array,
        ..one_base()
    };
    let graph = assert_cut_at_0(&with_anchor(&marks));
    assert_eq!(object(&graph, TABLE, 8), [0, 0, 7]);
    let base_array = vec![0, 1, 8, 9, 7];
    let marks = Marks {
        base_array,
        ..one_base()
    };
    let graph = assert_cut_at_0(&with_anchor(&marks));
    assert_eq!(object(&graph, TABLE, 10), [0, 1, 8]);
}

/// Answer 4. All is done but to shorten the array, or the second one.
#[test]
fn a_link_behind_an_array_fails_after_a_table_was_added() {
    for (array, position) in [(MARK_ARRAY, 2), (BASE_ARRAY, 4)] {
        let mut marks = one_base();
        marks.mark_array.extend([0; 2]);
        marks.base_array.extend([0; 2]);
        let mut store = with_anchor(&marks);
        push_anchor(&mut store, array, position, 0);
        let graph = assert_fails(&store, RepackError::ErrorSplitSubtable, 7);
        assert_eq!(graph.vertex_data(TABLE).unwrap()[6..8], [0; 2]);
    }
}

/// Answer 4. Format 3 of Coverage is unknown; as base coverage it is never looked at.
#[test]
fn an_unreadable_base_coverage_is_shared_unread() {
    let base_coverage = words([3, 0]);
    let marks = Marks {
        base_coverage,
        ..one_base()
    };
    let graph = assert_cut_at_0(&with_anchor(&marks));
    assert_eq!(links(&graph, 8)[1], (4, BASE_COVERAGE));
}

/// Answer 4. It is read where there is a cut, when both arrays are copies already.
#[test]
fn an_unreadable_mark_coverage_fails_after_arrays_were_copied() {
    let mark_coverage = words([3, 0]);
    let marks = Marks {
        mark_coverage,
        ..one_base()
    };
    let graph = assert_fails(&with_anchor(&marks), RepackError::ErrorReadTable, 2);
    assert_eq!(links(&graph, TABLE)[0], (2, MARK_COVERAGE));
    assert_nothing_to_split(&marks.store());
}

/// Answer 5. The mark that no glyph is covered of keeps its anchor, on an array that has no place for
/// it.
#[test]
fn short_mark_coverage_fails_where_an_uncovered_mark_has_an_anchor() {
    let mark_coverage = words([1, 0]);
    let marks = Marks {
        mark_coverage,
        ..Marks::new(1, &[0], 0)
    };
    let mut store = marks.store();
    push_anchor(&mut store, MARK_ARRAY, 4, 65_506);
    let graph = assert_fails(&store, RepackError::ErrorSplitSubtable, 7);
    assert_eq!(object(&graph, 8, 8), words([0]));
}

/// Answer 5. Without an anchor the mark is in no table.
#[test]
fn short_mark_coverage_loses_a_mark_without_an_anchor() {
    let mark_coverage = words([1, 0]);
    let marks = Marks {
        mark_coverage,
        ..Marks::new(1, &[0], 1)
    };
    let graph = assert_cut_at_0(&with_anchor(&marks));
    assert_eq!(object(&graph, TABLE, 8), words([0]));
    assert_eq!(object(&graph, 8, 8), words([0]));
}

/// Answer 7. The kept table leads to it as before.
#[test]
fn a_link_of_the_table_at_no_slot_is_kept() {
    let mut store = with_anchor(&one_base());
    let stray = push_anchor(&mut store, TABLE, 0, 0);
    let graph = assert_cut_at_0(&store);
    assert_eq!(links(&graph, TABLE)[0], (0, stray));
}

/// Answer 7. At the count, and half over a slot.
#[test]
fn a_link_of_an_array_at_no_slot_fails_after_a_table_was_added() {
    for (array, position) in [(MARK_ARRAY, 0), (BASE_ARRAY, 0), (BASE_ARRAY, 1)] {
        let mut store = with_anchor(&one_base());
        push_anchor(&mut store, array, position, 0);
        assert_fails(&store, RepackError::ErrorSplitSubtable, 7);
    }
}

/// Answer 7. One object is both arrays: the slot of class 0, which is cut off with the empty class
/// behind it, is none of a mark. The slot of class 1 is the mark's too.
#[test]
fn a_link_at_a_slot_of_one_array_alone_fails_where_both_are_one_object() {
    let both = |slot| {
        let mut store = Marks::new(2, &[1], 1).store();
        let rows = [(2, 1), (4, 2), (8, 3), (10, 3)];
        store.links = rows.map(|(at, child)| link::offset(0, at, child)).concat();
        push_anchor(&mut store, MARK_ARRAY, slot, TOO_LARGE);
        store
    };
    assert_fails(&both(2), RepackError::ErrorSplitSubtable, 11);
    assert_eq!(split_markbase(&both(4), TABLE).unwrap().cuts, [1]);
}

/// Answer 7. A slot that leads to the table goes to the new table with its link, and counts all
/// the bytes of table, coverages and arrays.
#[test]
fn a_table_reachable_from_itself_is_split() {
    let looped = |len| {
        let mut store = Marks::new(1, &[], 2).store();
        push_anchor(&mut store, BASE_ARRAY, 2, len);
        store.push_link(BASE_ARRAY, 4, TABLE);
        store
    };
    let own = 12 + 4 + 4 + 2 + 6;
    let longest = TOO_LARGE - 2 - own - 1;
    assert_nothing_to_split(&looped(longest));
    let graph = assert_cut_at_0(&looped(longest + 1));
    assert_eq!(links(&graph, 11), [(2, 5), (4, TABLE)]);
    assert_eq!(graph.vertex_data(TABLE).unwrap()[6..8], [0; 2]);
}
