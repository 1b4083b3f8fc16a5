//! What a compaction is lent.

use super::{exactly, in_lookups_exactly, junk, marks_exactly, SPARE};
use crate::{
    generate::{self, Case},
    Call, Compaction, Edition, Functions, Random,
};
use oracle::{link, Store};
use splitter::Kind;

/// Splits of the stores of a seed, one of each kind, which are lent exactly what they need.
pub fn all_kinds(seed: u64, edition: Edition) -> [(Functions, Call<u32>); 4] {
    let random = &mut Random::new(seed);
    let [pairs, marks] = [Kind::Pairs, Kind::Marks].map(Functions::Of);
    let [one, two] = [generate::format1(seed), generate::format2(seed)]
        .map(|Case { store, table }| exactly(&store, table, edition, random));
    let Case { store, table } = generate::marks(seed);
    let of_marks = marks_exactly(&store, table, edition, random);
    let listed = in_lookups_exactly(&generate::lookups(seed), edition, random);
    [
        (pairs, one),
        (pairs, two),
        (marks, of_marks),
        (Functions::InLookups, listed),
    ]
}

/// A compaction that is lent exactly the walk that it needs, and a store as it is.
pub fn compaction_exactly(store: &Store, roots: Vec<u32>, random: &mut Random) -> Compaction {
    lend(store.clone(), roots, random, 0)
}

/// A compaction that is lent a longer walk, and a store with room.
pub fn compaction_amply(store: &Store, roots: Vec<u32>, random: &mut Random) -> Compaction {
    let mut store = store.clone();
    store.data.extend(junk::<u8>(random, 0, SPARE));
    store.objects.extend(junk::<u32>(random, 0, SPARE));
    let spare = link::NUMBERS * SPARE;
    store.links.extend(junk::<u32>(random, 0, spare));
    lend(store, roots, random, SPARE)
}

fn lend(store: Store, roots: Vec<u32>, random: &mut Random, spare: usize) -> Compaction {
    Compaction {
        walk: junk(random, 2 * store.counts[1] as usize, spare),
        store,
        roots,
        moved: 0xFFFF,
    }
}
