//! Reads pairs of a small table of classes, and shows a refusal.

use splitter::{read_pair, Refusal, Store};

fn main() -> Result<(), Refusal> {
    // Format 2, X advances: glyph 10 is of class 0 and glyph 11 of class 1, and so are 20 and 21.
    let mut store = Store::new();
    let table = store.add_object(&words(&[2, 0, 4, 0, 0, 0, 2, 2, 0, 5, 6, 0xFFF9]))?;
    let coverage = store.add_object(&words(&[1, 2, 10, 11]))?;
    let class_def1 = store.add_object(&words(&[1, 11, 1, 1]))?;
    let class_def2 = store.add_object(&words(&[1, 21, 1, 1]))?;
    store.add_link(table, 2, coverage)?;
    store.add_link(table, 8, class_def1)?;
    store.add_link(table, 10, class_def2)?;

    for first in [10, 11, 12] {
        for second in [20, 21] {
            match read_pair(&store, table, first, second)? {
                Some(pair) => println!("{first} {second}: {}", pair.first.x_advance),
                None => println!("{first} {second}: no pair"),
            }
        }
    }
    if let Err(refusal) = read_pair(&store, coverage, 10, 20) {
        println!("refused by {}: {refusal}", refusal.number());
    }
    Ok(())
}

fn words(words: &[u16]) -> Vec<u8> {
    words.iter().flat_map(|word| word.to_be_bytes()).collect()
}

#[test]
fn it_ends_well() {
    assert_eq!(main(), Ok(()));
}
