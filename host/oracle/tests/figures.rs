//! The figures W3 to W12, through the text and the stand-in writers.

#[path = "helpers/tables.rs"]
mod tables;

use oracle::{
    split,
    write::{self, words},
    Split, Store,
};
use tables::{format1, format1_slots, table, Format2, TABLE};

/// The coverage of W3, which is 10 bytes long.
const THREE: [u16; 3] = [10, 20, 30];

fn split_table(store: &Store) -> Split {
    split(store, TABLE).unwrap()
}

#[test]
fn w3_scattered_glyphs_are_a_list() {
    assert_eq!(write::coverage(&THREE), words([1, 3, 10, 20, 30]));
}

#[test]
fn w4_a_run_of_eight_is_a_range() {
    let glyphs: Vec<u16> = (100..=107).collect();
    assert_eq!(write::coverage(&glyphs), words([2, 1, 100, 107, 0]));
}

#[test]
fn w5_a_tie_is_a_list() {
    assert_eq!(write::coverage(&[5, 6, 7]), words([1, 3, 5, 6, 7]));
}

#[test]
fn w6_no_glyphs_are_four_bytes() {
    assert_eq!(write::coverage(&[]), words([1, 0]));
    assert_eq!(write::class_def(&[]), words([2, 0]));
}

#[test]
fn w7_three_sets_are_cut_at_2() {
    let store = format1(&THREE, &[30_000; 3]);
    let split = split_table(&store);
    assert_eq!(split.cuts, [2]);
    assert_eq!(split.new_tables, [5]);

    let new_data = &split.graph.data()[store.counts[0] as usize..];
    let new_table = [1, 0, 4, 0, 1, 0];
    let new_coverage = [1, 1, 30];
    let kept_coverage = [1, 2, 10, 20];
    let expected = words([&new_table[..], &new_coverage, &kept_coverage].concat());
    assert_eq!(new_data.len(), 26);
    assert_eq!(new_data, expected);

    let kept_table = words([1, 0, 4, 0, 2, 0, 0]);
    assert_eq!(split.graph.vertex_data(TABLE), Some(&kept_table[..]));
    assert!(split.graph.links(TABLE).eq([(2, 7), (10, 2), (12, 3)]));
    assert!(split.graph.links(5).eq([(2, 6), (10, 4)]));
}

#[test]
fn w8_a_set_that_fits_is_not_cut() {
    let store = format1(&[10], &[65_517]);
    let split = split_table(&store);
    assert_eq!(split.cuts, []);
    assert_eq!(split.new_tables, []);
    assert_eq!(split.graph.data(), store.data);
}

#[test]
fn w9_a_set_a_byte_longer_is_cut_at_0() {
    let split = split_table(&format1(&[10], &[65_518]));
    assert_eq!(split.cuts, [0]);
    let kept_table = words([1, 0, 4, 0, 0]);
    assert_eq!(kept_table.len(), 10);
    assert_eq!(split.graph.vertex_data(TABLE), Some(&kept_table[..]));
}

#[test]
fn w10_the_item_at_a_cut_is_not_measured_again() {
    let mut store = format1(&THREE, &[100, 30_000, 20_000]);
    let d = store.push_object(&[0; 40_000]);
    store.push_link(2, 2, d);
    store.push_link(3, 2, d);
    assert_eq!(split_table(&store).cuts, [1]);
}

#[test]
fn w11_a_set_in_two_slots_counts_once() {
    let mut store = format1_slots(&[10, 20], 2);
    let set = store.push_object(&[0; 40_000]);
    store.push_link(TABLE, 10, set);
    store.push_link(TABLE, 12, set);
    assert_eq!(split_table(&store).cuts, []);
}

#[test]
fn w12_rows_are_cut_at_162() {
    let format2 = Format2 {
        formats: [0x0004, 0],
        rows: 170,
        columns: 200,
    };
    let glyph_classes: Vec<_> = (0..170).map(|class| (100 + class, class)).collect();
    let class_def2 = table(&[1, 100, 202], 410);
    let split = split_table(&format2.store(&glyph_classes, &class_def2));
    assert_eq!(split.cuts, [162]);
    let new_table = split.graph.vertex_data(split.new_tables[0]).unwrap();
    assert_eq!(new_table.len(), 3_216);
    assert_eq!(new_table[..16], words([2, 0, 4, 0, 0, 0, 8, 200]));
}

/// No glyphs: the estimates are 4 and 4, and of 4, 4 and 6 the largest is left out.
#[test]
fn a_row_without_glyphs_is_cut_from_65_512_bytes_on() {
    let cuts = |format, columns| {
        let format2 = Format2 {
            formats: [format, 0],
            rows: 1,
            columns,
        };
        let cuts = split_table(&format2.store(&[], &words([1, 0, 0]))).cuts;
        (format2.row_size(), cuts)
    };
    assert_eq!(cuts(0x001F, 6_551), (65_510, vec![]));
    assert_eq!(cuts(0x000F, 8_189), (65_512, vec![0]));
}
