//! Format 1: letters before letters.

use super::words::{bytes, coverage, device};
use splitter::{Link, Refusal, Store};

/// X advance and its device for the first glyph, X placement for the second.
const VALUE_FORMATS: [u16; 2] = [0x0044, 0x0001];

/// The bytes of a record: the second glyph and three fields.
const RECORD: u32 = 8;

/// Letters in three runs of glyphs.
fn firsts() -> Vec<u16> {
    (36..=61).chain(68..=93).chain(110..=217).collect()
}

/// The letters behind a glyph that it is kerned with.
fn seconds(first: u16) -> impl Iterator<Item = u16> {
    (36..=217).filter(move |second| !(u32::from(*second) * 7 + u32::from(first)).is_multiple_of(9))
}

/// A set, at every 32nd record of which a device is linked.
fn pair_set(first: u16) -> (Vec<u8>, Vec<u32>) {
    let mut words = vec![seconds(first).count() as u16];
    let mut positions = Vec::new();
    for (record, second) in (0..).zip(seconds(first)) {
        let nearer = (first.wrapping_mul(31) ^ second.wrapping_mul(17)) % 90;
        words.extend([second, 0u16.wrapping_sub(nearer), 0, nearer % 4]);
        if (record + u32::from(first)).is_multiple_of(32) {
            positions.push(2 + RECORD * record + 4);
        }
    }
    (bytes(&words), positions)
}

/// The store and its table. Every tenth glyph has the set of the one before it, and two have none.
pub fn store() -> Result<(Store, u32), Refusal> {
    let firsts = firsts();
    let mut store = Store::new();
    let table = store.add_object(&table(firsts.len()))?;
    let coverage = store.add_object(&coverage(&firsts))?;
    let devices = devices(&mut store)?;
    let mut links = vec![Link::offset(table, 2, coverage)];
    let mut last_set = None;
    for (place, &first) in (0..).zip(&firsts) {
        if place % 80 == 5 {
            continue;
        }
        let set = match last_set.filter(|_| place % 10 == 9) {
            Some(set) => set,
            None => {
                let (bytes, positions) = pair_set(first);
                let set = store.add_object(&bytes)?;
                let positions = positions.into_iter().zip(devices.iter().cycle());
                links.extend(
                    positions.map(|(position, &device)| Link::offset(set, position, device)),
                );
                set
            }
        };
        links.push(Link::offset(table, 10 + 2 * place, set));
        last_set = Some(set);
    }
    store.add_links(links)?;
    Ok((store, table))
}

/// The table, with a slot for each of so many sets.
fn table(sets: usize) -> Vec<u8> {
    let [format1, format2] = VALUE_FORMATS;
    let mut words = vec![1, 0, format1, format2, sets as u16];
    words.resize(words.len() + sets, 0);
    bytes(&words)
}

fn devices(store: &mut Store) -> Result<Vec<u32>, Refusal> {
    let deltas = [0x4000, 0x0100, 0x5000, 0x0C40];
    deltas
        .iter()
        .map(|&deltas| store.add_object(&device(deltas)))
        .collect()
}
