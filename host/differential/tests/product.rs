//! Which device links the 16-bit product moves wrongly, one link at a time.

use differential::{
    check::{as_the_oracle, frame, Split},
    lend,
    model::numbers::bytes,
    Archive,
    Edition::First,
    Random, Tally,
};
use oracle::Store;

const ROWS: u16 = 220;
const COLUMNS: u16 = 300;

/// A format 2 table, object 0, in which one record has a device.
fn one_device(record: u32) -> Store {
    let mut store = Store::default();
    let mut table = bytes([2, 0, 0x10, 0, 0, 0, ROWS, COLUMNS]);
    table.resize(16 + 2 * ROWS as usize * COLUMNS as usize, 0);
    let no_glyphs = bytes([2, 0]);
    for object in [&table, &no_glyphs, &no_glyphs, &no_glyphs, &vec![0; 8]] {
        store.push_object(object);
    }
    for (position, object) in [(2, 1), (8, 2), (10, 3), (16 + 2 * record, 4)] {
        store.push_link(0, position, object);
    }
    store
}

/// Rows 109 and 218 are cut, and there are 66,000 records. Records from 65,536 on are taken for
/// those from 0 to 463.
#[test]
fn the_product_shows_at_its_edges() {
    let hidden = [464, 465, 32_699, 32_700, 65_399, 65_400, 65_534, 65_535];
    let shown = [0, 1, 462, 463, 65_536, 65_537, 65_700, 65_999];
    let mut tally = Tally::default();
    for record in hidden.into_iter().chain(shown) {
        let call = lend::exactly(&one_device(record), 0, First, &mut Random::new(0));
        let split = Split::by(&Archive, &call);
        assert_eq!(split.places, [109, 218]);
        assert_eq!(frame(&split), Ok(()));
        assert_eq!(as_the_oracle(&split, &mut tally), Ok(()), "record {record}");
        let count: usize = tally.differences.iter().sum();
        assert_eq!(tally.differences[0], count.min(hidden.len()));
    }
}
