//! What is left to the host: a table that fits has to be packed so that it does.

mod common;

use common::bytes;
use splitter::{cut_plan, split, Edition::First, Refusal, Scratch, Store};

/// Format 2 with X advances: 400 rows of 101 records, a glyph a row in runs of 30, and a class definition
/// 2 of 3,006 bytes.
fn rows() -> Result<Store, Refusal> {
    const GAPS: [u16; 10] = [5, 5, 5, 5, 6, 6, 6, 6, 6, 6];
    let glyph = |row: u16| {
        let gaps = usize::from(row / 30).min(GAPS.len());
        100 + row + GAPS[..gaps].iter().sum::<u16>()
    };
    let mut table = bytes(&[2, 0, 4, 0, 0, 0, 400, 101]);
    table.resize(16 + 2 * 400 * 101, 0);
    let coverage: Vec<u16> = [1, 400].into_iter().chain((0..400).map(glyph)).collect();
    let mut class_def1 = vec![2, 399];
    class_def1.extend((1..400).flat_map(|row| [glyph(row), glyph(row), row]));
    let mut class_def2 = bytes(&[1, 1_000, 1_500]);
    class_def2.resize(3_006, 0);
    let mut store = Store::new();
    for object in [table, bytes(&coverage), bytes(&class_def1), class_def2] {
        store.add_object(&object)?;
    }
    for (position, part) in [(2, 1), (8, 2), (10, 3)] {
        store.add_link(0, position, part)?;
    }
    Ok(store)
}

/// The greatest offset of a table whose parts stand behind it in this order.
fn greatest_offset(store: &Store, table: u32, parts: &[u32]) -> usize {
    let len = |object: u32| store.view().object(object).unwrap().len();
    let last = parts.split_last().unwrap().1;
    len(table) + last.iter().map(|&part| len(part)).sum::<usize>()
}

/// The largest of coverage and class definitions goes last. In order of their numbers, class definition 2,
/// which is the largest and the only old one, comes first.
#[test]
fn the_largest_part_goes_last() -> Result<(), Refusal> {
    let mut store = rows()?;
    let mut scratch = Scratch::new();
    assert_eq!(cut_plan(&store, 0, First, &mut scratch)?, [320]);
    split(&mut store, 0, First, &mut scratch)?;
    let in_link_order: Vec<u32> = store.view().offsets_of(0).map(|link| link.child).collect();
    let mut by_number = in_link_order.clone();
    by_number.sort_unstable();
    assert_eq!(greatest_offset(&store, 0, &by_number), 67_732);
    assert_eq!(greatest_offset(&store, 0, &in_link_order), 65_482);
    Ok(())
}
