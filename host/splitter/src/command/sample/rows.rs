//! Format 2: classes of letters before classes of letters.

use super::words::{bytes, class_def, coverage, device};
use splitter::{Link, Refusal, Store};

/// X placement, X advance and both devices for the first glyph, nothing for the second.
const VALUE_FORMATS: [u16; 2] = [0x0055, 0];

/// The bytes of a record.
const RECORD: u32 = 8;

const ROWS: u16 = 170;
const COLUMNS: u16 = 112;

/// The first of the covered glyphs, and how many there are.
const FIRSTS: (u16, u16) = (300, 240);

/// The first of the glyphs that have a class behind a letter, and how many there are.
const SECONDS: (u16, u16) = (290, 130);

/// The store and its table.
pub fn store() -> Result<(Store, u32), Refusal> {
    let mut store = Store::new();
    let table = store.add_object(&table())?;
    let (first, count) = FIRSTS;
    let glyphs: Vec<u16> = (first..first + count).collect();
    let coverage = store.add_object(&coverage(&glyphs))?;
    let class_def1 = store.add_object(&class_def(first, &classes(count, ROWS)))?;
    let (second, count) = SECONDS;
    let class_def2 = store.add_object(&class_def(second, &classes(count, COLUMNS)))?;
    let devices = [0x4000, 0x0100, 0x5000].map(device);

    let mut links = vec![(2, coverage), (8, class_def1), (10, class_def2)];
    for (number, device) in (0..).zip(devices) {
        let device = store.add_object(&device)?;
        // The device of the X placement at some records, that of the X advance at others.
        let records = (0..u32::from(ROWS) * u32::from(COLUMNS)).skip(7 * number as usize);
        let positions = records
            .step_by(97)
            .map(|record| 16 + RECORD * record + 4 + number % 2 * 2);
        links.extend(positions.map(|position| (position, device)));
    }
    let links = links.into_iter();
    store.add_links(links.map(|(position, child)| Link::offset(table, position, child)))?;
    Ok((store, table))
}

fn table() -> Vec<u8> {
    let [format1, format2] = VALUE_FORMATS;
    let mut words = vec![2, 0, format1, format2, 0, 0, ROWS, COLUMNS];
    for row in 0..ROWS {
        for column in 0..COLUMNS {
            let nearer = ((row * 31) ^ (column * 17)) % 90;
            words.extend([nearer % 5, 0u16.wrapping_sub(nearer), 0, 0]);
        }
    }
    bytes(&words)
}

/// Classes for so many glyphs: all classes, and then some of them again.
fn classes(glyphs: u16, classes: u16) -> Vec<u16> {
    (0..glyphs).map(|glyph| glyph % classes).collect()
}
