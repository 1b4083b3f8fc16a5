//! A night: tables come into one store, are split, and have done their work. Where the store is full, all goes that
//! the first table does not need, and the night goes on.

use splitter::{read_pair, split, Edition, Refusal, Scratch, Store};

/// So many tables come.
const TABLES: u16 = 400;

/// The second glyphs of each set: those below this.
const SECONDS: u16 = 7_500;

fn main() -> Result<(), Refusal> {
    let mut store = Store::new();
    let mut scratch = Scratch::new();
    let mut first = None;
    for value in 1..=TABLES {
        let table = match add_table(&mut store, value) {
            Err(Refusal::NoRoom) => {
                let compacted = store.compact(first.as_slice())?;
                println!(
                    "before table {value}: {} objects and {} bytes went, {} bytes moved",
                    compacted.freed.objects, compacted.freed.data, compacted.moved
                );
                first = compacted.roots.first().copied();
                add_table(&mut store, value)?
            }
            table => table?,
        };
        split(&mut store, table, Edition::Second, &mut scratch)?;
        first = first.or(Some(table));
    }
    let first = first.ok_or(Refusal::NoTable)?;
    let pair = read_pair(&store, first, 10, 70)?.ok_or(Refusal::NoTable)?;
    println!("the first table says {}", pair.first.x_advance);
    Ok(())
}

/// A table of three pair sets, of glyphs 10 to 12, each of whose pairs has this advance.
fn add_table(store: &mut Store, advance: u16) -> Result<u32, Refusal> {
    let table = store.add_object(&words(&[1, 0, 4, 0, 3, 0, 0, 0]))?;
    let coverage = store.add_object(&words(&[1, 3, 10, 11, 12]))?;
    store.add_link(table, 2, coverage)?;
    for slot in [10, 12, 14] {
        let pairs = (0..SECONDS).flat_map(|second| [second, advance]);
        let pairs: Vec<u16> = [SECONDS].into_iter().chain(pairs).collect();
        let pair_set = store.add_object(&words(&pairs))?;
        store.add_link(table, slot, pair_set)?;
    }
    Ok(table)
}

fn words(words: &[u16]) -> Vec<u8> {
    words.iter().flat_map(|word| word.to_be_bytes()).collect()
}

#[test]
fn it_ends_well() {
    assert_eq!(main(), Ok(()));
}
