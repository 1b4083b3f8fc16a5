//! The figures W1 to W12, through the archive and the model. Pair sets are sorted, and reach the lengths of
//! the figures by what they lead to.

use differential::{
    by_hand::{format1, format1_slots, format2, lengthen},
    check::all_agree,
    lend,
    model::{class_def, coverage, numbers::bytes, values::ValueFormat},
    Archive, Call,
    Edition::First,
    Random, Subject,
};
use oracle::{link, Store};

const TABLE: u32 = 0;

/// The glyphs of W3.
const THREE: [u16; 3] = [10, 20, 30];

/// The call after a split, and the places of a cut plan.
fn split(store: &Store) -> (Call<u32>, Vec<u16>) {
    let mut call = lend::exactly(store, TABLE, First, &mut Random::new(0));
    assert_eq!(all_agree(&Archive, &call), Ok(()));
    let mut plan = call.to_plan();
    assert_eq!(Archive.cut_plan(&mut plan), 0);
    assert_eq!(Archive.split_pairpos(&mut call), 0);
    assert_eq!(call.count, plan.count);
    plan.list.truncate(plan.count as usize);
    (call, plan.list)
}

fn cuts(store: &Store) -> Vec<u16> {
    split(store).1
}

/// An object's bytes.
fn object(store: &Store, object: usize) -> &[u8] {
    let [head, tail] = store.objects_in_use()[object];
    &store.data[head as usize..tail as usize]
}

#[test]
fn w1_and_w2_fields_of_value_formats() {
    let format = ValueFormat(0x00F5);
    assert_eq!(format.field_count(), 6);
    assert!(format.devices().eq([2, 3, 4, 5]));
    assert_eq!(ValueFormat(0xFF00).field_count(), 0);
}

#[test]
fn w3_to_w6_coverage_and_class_definitions() {
    assert_eq!(coverage::write(&THREE), bytes([1, 3, 10, 20, 30]));
    let run: Vec<u16> = (100..=107).collect();
    assert_eq!(coverage::write(&run), bytes([2, 1, 100, 107, 0]));
    assert_eq!(coverage::write(&[5, 6, 7]), bytes([1, 3, 5, 6, 7]));
    assert_eq!(coverage::write(&[]), bytes([1, 0]));
    assert_eq!(class_def::write(&[]), bytes([2, 0]));
}

#[test]
fn w7_three_sets_are_cut_at_2() {
    let store = format1(&THREE, &[30_000; 3]);
    let (call, cuts) = split(&store);
    assert_eq!(cuts, [2]);
    assert_eq!(call.list, [8]);

    let new_table = [1, 0, 4, 0, 1, 0];
    let new_coverage = [1, 1, 30];
    let kept_coverage = [1, 2, 10, 20];
    let new_words = [&new_table[..], &new_coverage, &kept_coverage].concat();
    let new_data = &call.store.data_in_use()[store.data.len()..];
    assert_eq!(new_data.len(), 26);
    assert_eq!(new_data, bytes(new_words));

    assert_eq!(object(&call.store, 0), bytes([1, 0, 4, 0, 2, 0, 0]));
    let row = link::offset;
    let rows = [row(0, 2, 10), row(0, 10, 2), row(0, 12, 3)];
    let of_sets = [row(2, 0, 5), row(3, 0, 6), row(4, 0, 7)];
    let new_rows = [row(8, 2, 9), row(8, 10, 4)];
    let rows = [&rows[..], &of_sets, &new_rows].concat();
    assert_eq!(call.store.links_in_use(), rows);
}

#[test]
fn w8_and_w9_one_set_at_the_limit() {
    assert_eq!(cuts(&format1(&[10], &[65_517])), []);
    let (call, cuts) = split(&format1(&[10], &[65_518]));
    assert_eq!(cuts, [0]);
    assert_eq!(object(&call.store, 0), bytes([1, 0, 4, 0, 0]));
}

#[test]
fn w10_the_item_at_a_cut_is_not_measured_again() {
    let mut store = format1(&THREE, &[100, 30_000, 20_000]);
    let d = store.push_object(&[0; 40_000]);
    store.push_link(2, 2, d);
    store.push_link(3, 2, d);
    assert_eq!(cuts(&store), [1]);
}

#[test]
fn w11_a_set_in_two_slots_counts_once() {
    let mut store = format1_slots(&[10, 20], 2);
    let set = store.push_object(&bytes([0]));
    store.push_link(0, 10, set);
    store.push_link(0, 12, set);
    lengthen(&mut store, set, 40_000);
    assert_eq!(cuts(&store), []);
}

#[test]
fn w12_rows_are_cut_at_162() {
    let classes: Vec<_> = (0..170).map(|class| (100 + class, class)).collect();
    let mut class_def2 = bytes([1, 100, 202]);
    class_def2.resize(410, 0);
    let (call, cuts) = split(&format2([4, 0], [170, 200], &classes, &class_def2));
    assert_eq!(cuts, [162]);
    let new_table = object(&call.store, call.list[0] as usize);
    assert_eq!(new_table.len(), 3_216);
    assert_eq!(new_table[..16], bytes([2, 0, 4, 0, 0, 0, 8, 200]));
}

/// No glyphs: the estimates are 4 and 4, and of 4, 4 and 6 the largest is left out.
#[test]
fn a_row_without_glyphs_is_cut_from_65_512_bytes_on() {
    let one_row =
        |format, columns| cuts(&format2([format, 0], [1, columns], &[], &bytes([1, 0, 0])));
    assert_eq!(one_row(0x001F, 6_551), []);
    assert_eq!(one_row(0x000F, 8_189), [0]);
}

/// Every other glyph is covered, and two classes have every other one of these. Row 1 brings the
/// coverage to 65,540 bytes and the class definition to more.
#[test]
fn rows_of_no_bytes_are_cut_by_the_estimates_alone() {
    let classes: Vec<_> = (0..32_768).map(|i| (2 * i, i % 2)).collect();
    for (formats, columns) in [([0xFF00, 0], 9), ([0x00FF, 4], 0)] {
        let store = format2(formats, [2, columns], &classes, &bytes([2, 0]));
        assert_eq!(object(&store, 0).len(), 16);
        assert_eq!(cuts(&store), [1]);
    }
}
