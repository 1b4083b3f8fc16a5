//! Order-only links. No rule asks where they lead from or to, so they lead from and to everything.

use super::draft::Draft;
use crate::Random;

/// Drafts order-only links among all objects, more often among those that a call names, what these lead to, and
/// what that leads to.
pub fn draft(draft: &mut Draft, random: &mut Random, named: &[usize]) {
    let objects = Objects::around(draft, random, named);
    for _ in 0..random.below(6) {
        match random.below(7) {
            0..=1 => scattered(draft, random, &objects),
            2 => ring(draft, random, &objects, named),
            3 => many_of_one(draft, random, &objects, named),
            4 => many_to_one(draft, random, &objects),
            5 => beside_offsets(draft, random),
            _ => to_themselves(draft, random, &objects),
        }
    }
}

/// The objects of a draft, and those near to what a call names.
struct Objects {
    count: usize,
    near: Vec<usize>,
}

impl Objects {
    fn around(draft: &Draft, random: &mut Random, named: &[usize]) -> Self {
        let mut near = named.to_vec();
        for _ in 0..2 {
            let ends = draft.ends().into_iter();
            let below = ends.filter(|(parent, _)| near.contains(parent));
            let mut below: Vec<usize> = below.map(|(_, child)| child).collect();
            random.shuffle(&mut below);
            near.extend(below.into_iter().take(MOST_NEAR));
        }
        Self {
            count: draft.count(),
            near,
        }
    }

    fn pick(&self, random: &mut Random) -> usize {
        match random.one_in(2) {
            true => random.pick(&self.near),
            false => random.below(self.count),
        }
    }
}

/// At each of two steps down, at most so many objects are near.
const MOST_NEAR: usize = 12;

/// At most so many order-only links come at a time.
const MOST_LINKS: usize = 400;

fn scattered(draft: &mut Draft, random: &mut Random, objects: &Objects) {
    for _ in 0..random.within(1..=8) {
        draft.order(objects.pick(random), objects.pick(random));
    }
}

/// A ring through some objects, and often through what a call names.
fn ring(draft: &mut Draft, random: &mut Random, objects: &Objects, named: &[usize]) {
    let mut ring: Vec<usize> = (0..random.within(1..=6))
        .map(|_| objects.pick(random))
        .collect();
    if !random.one_in(3) {
        ring.push(random.pick(named));
    }
    let nexts = ring.iter().cycle().skip(1);
    for (&object, &next) in ring.iter().zip(nexts) {
        draft.order(object, next);
    }
}

/// One object that is placed after many, most of which come in a row; often one that a call names.
fn many_of_one(draft: &mut Draft, random: &mut Random, objects: &Objects, named: &[usize]) {
    let parent = match random.one_in(2) {
        true => random.pick(named),
        false => objects.pick(random),
    };
    let count = objects.count.min(MOST_LINKS);
    let first = random.below(objects.count - count + 1);
    for child in first..first + count {
        if !random.one_in(3) {
            draft.order(parent, child);
        }
    }
    for &child in &objects.near {
        draft.order(parent, child);
    }
}

/// Many objects that are placed after one.
fn many_to_one(draft: &mut Draft, random: &mut Random, objects: &Objects) {
    let child = objects.pick(random);
    for _ in 0..random.within(1..=objects.count.min(MOST_LINKS)) {
        draft.order(objects.pick(random), child);
    }
}

/// Objects that are placed after what they lead to.
fn beside_offsets(draft: &mut Draft, random: &mut Random) {
    let mut ends = draft.ends();
    random.shuffle(&mut ends);
    for (parent, child) in ends.into_iter().take(random.within(1..=40)) {
        draft.order(parent, child);
    }
}

fn to_themselves(draft: &mut Draft, random: &mut Random, objects: &Objects) {
    for _ in 0..random.within(1..=4) {
        let object = objects.pick(random);
        draft.order(object, object);
    }
}
