//! Splits a table of five pair sets that is too large, and shows what it became.

use splitter::{cut_plan, read_pair, split, Edition, Refusal, Scratch, Store};

/// The second glyphs of each set: those below this.
const SECONDS: u16 = 6_250;

/// The one that is shown.
const SECOND: u16 = 70;

fn main() -> Result<(), Refusal> {
    let mut store = Store::new();
    let table = store.add_object(&words(&[1, 0, 4, 0, 5, 0, 0, 0, 0, 0]))?;
    let coverage = store.add_object(&words(&[1, 5, 10, 11, 12, 13, 14]))?;
    store.add_link(table, 2, coverage)?;
    for set in 0..5 {
        let pairs = (0..SECONDS).flat_map(|second| [second, 100 + set]);
        let pairs: Vec<u16> = [SECONDS].into_iter().chain(pairs).collect();
        let pair_set = store.add_object(&words(&pairs))?;
        store.add_link(table, 10 + 2 * u32::from(set), pair_set)?;
    }

    let (edition, mut scratch) = (Edition::Second, Scratch::new());
    let places = cut_plan(&store, table, edition, &mut scratch)?;
    println!("cut at {places:?}");
    let new_tables = split(&mut store, table, edition, &mut scratch)?;
    for piece in [table].into_iter().chain(new_tables) {
        let view = store.view();
        let bytes = view.object(piece).map_or(0, <[u8]>::len);
        println!(
            "table {piece}: {bytes} bytes, {} links",
            view.offsets_of(piece).len()
        );
        for first in 10..15 {
            if let Some(pair) = read_pair(&store, piece, first, SECOND)? {
                println!("  {first} {SECOND}: advance {}", pair.first.x_advance);
            }
        }
    }
    Ok(())
}

fn words(words: &[u16]) -> Vec<u8> {
    words.iter().flat_map(|word| word.to_be_bytes()).collect()
}

#[test]
fn it_ends_well() {
    assert_eq!(main(), Ok(()));
}
