//! Roots of a compaction.

use crate::Random;
use oracle::Store;

/// Roots among the objects of a store: none, all, some or one, in any order and some twice; often those that
/// are named among them.
pub fn roots(store: &Store, named: &[u32], random: &mut Random) -> Vec<u32> {
    let objects = store.counts[1];
    let all = || (0..objects).collect::<Vec<u32>>();
    let mut roots = match random.below(10) {
        0 => Vec::new(),
        1 => return all(),
        2 => all(),
        3 => named.to_vec(),
        4..=6 => [named, &some(objects, random)].concat(),
        7 => some(objects, random).into_iter().take(1).collect(),
        _ => some(objects, random),
    };
    if random.one_in(3) {
        let again = some(roots.len() as u32, random);
        let again: Vec<u32> = again.iter().map(|&place| roots[place as usize]).collect();
        roots.extend(again);
    }
    random.shuffle(&mut roots);
    roots
}

/// A few numbers below a bound, if there are any.
fn some(bound: u32, random: &mut Random) -> Vec<u32> {
    let count = match bound {
        0 => 0,
        _ => random.within(1..=6),
    };
    let numbers = (0..count).map(|_| random.below(bound as usize) as u32);
    numbers.collect()
}
