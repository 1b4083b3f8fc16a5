//! What grows below the items of a table, and what stands around it.

use super::draft::Draft;
use crate::Random;

/// How long objects are.
#[derive(Clone, Copy, Debug)]
pub enum Sizes {
    /// A few bytes.
    Small,
    /// A few bytes up to a good part of the limit.
    Mixed,
    /// So that two are about as much as the limit, or one is.
    Large,
}

impl Sizes {
    /// Any of these.
    pub fn any(random: &mut Random) -> Self {
        random.pick(&[Self::Small, Self::Mixed, Self::Mixed, Self::Large])
    }

    /// A length.
    pub fn len(self, random: &mut Random) -> usize {
        match self {
            Self::Small => random.below(40),
            Self::Mixed => {
                let most = random.pick(&[40, 4_000, 30_000]);
                random.below(most)
            }
            Self::Large => random.pick(&[33_000, 40_000, 65_500]) - random.below(500),
        }
    }
}

/// Objects that share one another, lead deep down and in loops.
pub fn grow(draft: &mut Draft, random: &mut Random, sizes: Sizes) -> Vec<usize> {
    let count = random.within(1..=6);
    let mut objects = Vec::new();
    for _ in 0..count {
        let len = sizes.len(random);
        objects.push(draft.object(random.bytes(len)));
    }
    for _ in 0..random.below(2 * count) {
        let (parent, child) = (random.pick(&objects), random.pick(&objects));
        draft.link_anywhere(random, parent, child);
    }
    if random.one_in(12) {
        objects.push(chain(draft, random));
    }
    objects
}

/// The first of many objects of which each leads to the next.
fn chain(draft: &mut Draft, random: &mut Random) -> usize {
    let depth = random.pick(&[20, 300, 3_000]);
    let mut first = draft.object(Vec::new());
    for _ in 0..depth {
        let object = draft.object(random.bytes(3));
        draft.link(object, random.below(2), first);
        first = object;
    }
    first
}

/// Objects that nothing leads to; they may lead anywhere, to the table too.
pub fn surround(draft: &mut Draft, random: &mut Random) {
    for _ in 0..random.below(5) {
        let len = random.below(30);
        let object = draft.object(random.bytes(len));
        for _ in 0..random.below(4) {
            let child = random.below(draft.count());
            draft.link_anywhere(random, object, child);
        }
    }
}
