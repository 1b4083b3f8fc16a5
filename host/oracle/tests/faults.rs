//! What the text does on input that the port refuses, and where its 16-bit product wraps.
//!
//! Each fact is shown by its smallest input; the number is the port's answer to it.

#[path = "helpers/tables.rs"]
mod tables;

use oracle::{
    split,
    write::{self, words},
    Graph, RepackError, Store,
};
use tables::{format1, format1_slots, table, Format2, TABLE};

/// Two rows of 40,000 bytes, of which the second is cut off.
const TWO_ROWS: Format2 = Format2 {
    formats: [0x000F, 0],
    rows: 2,
    columns: 5_000,
};

/// Rows 109 and 218 are cut; row 219 begins with record 65,700, which is 164 in 16 bits.
const WRAPPING: Format2 = Format2 {
    formats: [0x0010, 0],
    rows: 220,
    columns: 300,
};

/// A class definition that names no glyph: four bytes.
fn no_classes() -> Vec<u8> {
    write::class_def(&[])
}

fn links(graph: &Graph, object: usize) -> Vec<(u32, usize)> {
    graph.links(object).collect()
}

fn assert_nothing_to_split(store: &Store) {
    let split = split(store, TABLE).unwrap();
    assert_eq!(split.new_tables, []);
    assert_eq!(split.graph.data(), store.data);
    assert_eq!(split.graph.num_vertices(), store.counts[1] as usize);
}

/// Answer 3.
#[test]
#[should_panic(expected = "called `Option::unwrap()` on a `None` value")]
fn a_table_under_2_bytes_panics() {
    let mut store = Store::default();
    store.push_object(&[0]);
    let _ = split(&store, TABLE);
}

/// Answer 3. The rows would end at byte 80,016; the data, with the new table, at 40,044.
#[test]
#[should_panic(expected = "range end index 80016 out of range for slice of length 40044")]
fn a_format_2_table_without_rows_panics() {
    let header = words(TWO_ROWS.header());
    let _ = split(&TWO_ROWS.store_with(&header, &[], &no_classes()), TABLE);
}

/// Answer 3. The second row is missing: the new table gets the coverage's bytes and those behind
/// it, and the kept table, which says one row, loses the one that it had.
#[test]
fn a_format_2_table_without_its_last_row_copies_the_next_objects_bytes() {
    let one_row = table(&TWO_ROWS.header(), 16 + 40_000);
    let mut store = TWO_ROWS.store_with(&one_row, &[], &no_classes());
    store.push_object(&[7; 39_988]);
    let split = split(&store, TABLE).unwrap();
    assert_eq!(split.cuts, [1]);

    let new_table = split.graph.vertex_data(split.new_tables[0]).unwrap();
    assert_eq!(new_table.len(), 16 + 40_000);
    assert_eq!(new_table[16..], store.data[16 + 40_000..]);
    let kept_table = words([2, 0, 0x000F, 0, 0, 0, 1, 5_000]);
    assert_eq!(split.graph.vertex_data(TABLE), Some(&kept_table[..]));
}

/// Answer 3. Only the header stands, before another table's worth of bytes: the kept table's tail
/// falls below its head, and it has no bytes left at all.
#[test]
fn a_format_2_table_without_rows_is_lost_where_enough_bytes_follow() {
    let header = words(TWO_ROWS.header());
    let mut store = TWO_ROWS.store_with(&header, &[], &no_classes());
    store.push_object(&[7; 79_988]);
    let split = split(&store, TABLE).unwrap();
    let new_table = split.graph.vertex_data(split.new_tables[0]).unwrap();
    assert_eq!(new_table[16..], [7; 40_000]);
    assert_eq!(split.graph.vertex_data(TABLE), None);
}

/// Answer 3. The two bytes past the third slot go as if they were not there.
#[test]
fn a_format_1_table_that_is_too_long_is_split_by_its_count() {
    let mut store = Store::default();
    store.push_object(&table(&[1, 0, 4, 0, 3], 10 + 2 * 3 + 2));
    let coverage = store.push_object(&write::coverage(&[10, 20, 30]));
    store.push_link(TABLE, 2, coverage);
    for i in 0..3 {
        let set = store.push_object(&[0; 30_000]);
        store.push_link(TABLE, 10 + 2 * i, set);
    }
    let split = split(&store, TABLE).unwrap();
    assert_eq!(split.cuts, [2]);
    assert_eq!(split.graph.vertex_data(TABLE).unwrap().len(), 14);
    assert_eq!(split.graph.vertex_data(5).unwrap().len(), 12);
}

/// Answer 3. As many bytes are cut off as the rows have, so two of the second row are kept.
#[test]
fn a_format_2_table_that_is_too_long_keeps_bytes_of_a_row_cut_off() {
    let bytes = table(&TWO_ROWS.header(), 16 + 2 * 40_000 + 2);
    let split = split(&TWO_ROWS.store_with(&bytes, &[], &no_classes()), TABLE).unwrap();
    assert_eq!(split.cuts, [1]);
    let kept_table = split.graph.vertex_data(TABLE).unwrap();
    assert_eq!(kept_table.len(), 16 + 40_000 + 2);
}

/// Answer 3.
#[test]
fn a_format_2_table_under_16_bytes_says_nothing_to_split() {
    let bytes = table(&TWO_ROWS.header(), 16 + 2 * 40_000);
    let store = TWO_ROWS.store_with(&bytes[..14], &[], &no_classes());
    assert_nothing_to_split(&store);
    let store = TWO_ROWS.store_with(&bytes, &[], &no_classes());
    assert_eq!(split(&store, TABLE).unwrap().cuts, [1]);
}

/// Answer 4, for coverage and both class definitions.
#[test]
fn a_format_2_table_with_a_link_missing_says_nothing_to_split() {
    for missing in [2, 8, 10] {
        let mut store = TWO_ROWS.store(&[], &no_classes());
        let kept_rows = store.links_in_use().iter().filter(|row| row[1] != missing);
        store.links = kept_rows.flatten().copied().collect();
        store.counts[2] -= 1;
        assert_nothing_to_split(&store);
    }
}

/// Answer 4. Format 3 of ClassDef is unknown; as class definition 2 it is never looked at.
#[test]
fn an_unreadable_class_definition_2_is_shared_unread() {
    let store = TWO_ROWS.store(&[], &words([3, 0]));
    assert_eq!(split(&store, TABLE).unwrap().cuts, [1]);
}

/// Answer 5. The third set has no glyph; the new table for it is there all the same.
#[test]
fn short_coverage_fails_after_a_table_was_added() {
    let store = format1(&[10, 20], &[30_000; 3]);
    let mut graph = Graph::load(&store).unwrap();
    let before = links(&graph, TABLE);
    assert_eq!(
        graph.split_pairpos(TABLE),
        Err(RepackError::ErrorSplitSubtable)
    );
    assert_eq!(graph.num_vertices(), 6);
    assert_eq!(graph.vertex_data(5), Some(&[0; 12][..]));
    assert_eq!(links(&graph, TABLE), before);
}

/// Answer 5. Of two new tables the first is complete: the old table still counts five sets, but
/// two of them are gone from it.
#[test]
fn short_coverage_fails_after_sets_were_moved() {
    let store = format1(&[10, 20, 30, 40], &[30_000; 5]);
    let mut graph = Graph::load(&store).unwrap();
    assert_eq!(
        graph.split_pairpos(TABLE),
        Err(RepackError::ErrorSplitSubtable)
    );
    assert_eq!(links(&graph, TABLE), [(2, 1), (10, 2), (12, 3), (18, 6)]);
    assert_eq!(links(&graph, 7), [(2, 8), (10, 4), (12, 5)]);
    assert_eq!(graph.vertex_data(TABLE).unwrap()[8..10], [0, 5]);
}

/// Answer 11: no record is ever read. An unsorted set, one with a second glyph twice, one a byte too long,
/// one a byte short, and one too short for a count are moved as they are.
#[test]
fn a_set_that_is_not_sorted_is_split_unread() {
    let sets = [
        words([2, 20, 5, 10, 7]),
        words([2, 20, 5, 20, 7]),
        [words([1, 20, 5]), vec![0]].concat(),
        vec![0, 1, 0, 20, 0],
        vec![0],
    ];
    for set_bytes in sets {
        let mut store = format1_slots(&[10, 20], 2);
        let large = store.push_object(&[0; 65_518]);
        let set = store.push_object(&set_bytes);
        store.push_link(TABLE, 10, large);
        store.push_link(TABLE, 12, set);
        let split = split(&store, TABLE).unwrap();
        assert_eq!(split.cuts, [0, 1]);
        let new_table = split.new_tables[1];
        assert_eq!(links(&split.graph, new_table)[1], (10, set));
        assert_eq!(split.graph.vertex_data(set), Some(&set_bytes[..]));
    }
}

/// Answer 7. The kept table ends at 14.
#[test]
fn a_link_at_no_slot_is_left_past_the_kept_tables_end() {
    let mut store = format1(&[10, 20, 30, 40], &[30_000; 4]);
    let stray = store.push_object(&[0; 2]);
    store.push_link(TABLE, 15, stray);
    let split = split(&store, TABLE).unwrap();
    assert_eq!(split.cuts, [2]);
    assert_eq!(split.graph.vertex_data(TABLE).unwrap().len(), 14);
    let kept_coverage = split.graph.num_vertices() - 1;
    assert_eq!(
        links(&split.graph, TABLE),
        [(2, kept_coverage), (10, 2), (12, 3), (15, stray)]
    );
}

/// Answer 7. The set reaches the table's 12 bytes and its coverage's 6, which come on top: the
/// longest set that is not cut is 65,499 bytes, where it is 65,517 without the loop.
#[test]
fn a_table_reachable_from_itself_counts_its_own_bytes() {
    let cuts = |set_len| {
        let mut store = format1(&[10], &[set_len]);
        store.push_link(2, 2, TABLE);
        split(&store, TABLE).unwrap().cuts
    };
    assert_eq!(cuts(65_499), []);
    assert_eq!(cuts(65_500), [0]);
}

/// Answer 7. A slot that leads to the table itself goes to the new table with its link.
#[test]
fn a_slot_that_leads_to_its_own_table_reaches_the_kept_table_after_the_split() {
    let mut store = format1_slots(&[10, 20], 2);
    let set = store.push_object(&[0; 65_500]);
    store.push_link(TABLE, 10, set);
    store.push_link(TABLE, 12, TABLE);
    let split = split(&store, TABLE).unwrap();
    assert_eq!(split.cuts, [1]);
    assert_eq!(links(&split.graph, split.new_tables[0])[1], (10, TABLE));
    assert_eq!(split.graph.vertex_data(TABLE).unwrap()[8..10], [0, 1]);
}

/// A sound store, which the port splits with the true product: the device of record 65,700 is
/// looked for at record 164, so its link stays, far past the end of the kept table.
#[test]
fn the_16_bit_product_leaves_a_device_link_behind() {
    let mut store = WRAPPING.store(&[], &no_classes());
    let device = store.push_object(&[0; 8]);
    store.push_link(TABLE, 16 + 2 * 65_700, device);
    let split = split(&store, TABLE).unwrap();
    assert_eq!(split.cuts, [109, 218]);
    assert_eq!(split.graph.vertex_data(TABLE).unwrap().len(), 65_416);
    assert_eq!(
        links(&split.graph, TABLE).last(),
        Some(&(16 + 2 * 65_700, device))
    );
    assert!(links(&split.graph, split.new_tables[1])
        .iter()
        .all(|&(position, _)| position < 16));
}

/// Again a sound store: the device of kept record 164 is taken for that of record 65,700. In the
/// new table, whose first record is 65,400, it lands at 16 + 2 · (164 − 65,400), below zero.
#[test]
fn the_16_bit_product_moves_a_kept_tables_device_link() {
    let mut store = WRAPPING.store(&[], &no_classes());
    let device = store.push_object(&[0; 8]);
    store.push_link(TABLE, 16 + 2 * 164, device);
    let split = split(&store, TABLE).unwrap();
    assert_eq!(split.cuts, [109, 218]);
    assert!(links(&split.graph, TABLE)
        .iter()
        .all(|&(position, _)| position < 16));
    assert_eq!(
        links(&split.graph, split.new_tables[1]).last(),
        Some(&(4_294_836_840, device))
    );
}

/// The same two links one record before the wrap, 65,535, and at a record that no wrap reaches.
#[test]
fn the_16_bit_product_is_true_below_65_536() {
    let mut store = WRAPPING.store(&[], &no_classes());
    let device = store.push_object(&[0; 8]);
    store.push_link(TABLE, 16 + 2 * 464, device);
    store.push_link(TABLE, 16 + 2 * 65_535, device);
    let split = split(&store, TABLE).unwrap();
    assert_eq!(split.cuts, [109, 218]);
    assert_eq!(
        links(&split.graph, TABLE).last(),
        Some(&(16 + 2 * 464, device))
    );
    assert_eq!(
        links(&split.graph, split.new_tables[1]).last(),
        Some(&(16 + 2 * (65_535 - 65_400), device))
    );
}
