//! Damaged compactions: unsound stores, roots that are not in use, walks that are short.

use super::{orders, scramble::nudged, soundness, Apply, Named};
use crate::{Call, Compaction, Random};
use oracle::link;

/// A way to damage a compaction.
#[derive(Clone, Copy, Debug)]
pub struct CompactDamage {
    /// What is wrong then.
    pub name: &'static str,
    /// What it answers.
    pub answer: u32,
    what: What,
}

/// What is damaged.
#[derive(Clone, Copy, Debug)]
enum What {
    /// The store, as that of a split.
    Store(Apply),
    /// Roots or walk.
    Rest(fn(&mut Compaction, &mut Random) -> Option<()>),
}

impl CompactDamage {
    /// A damaged copy of a call, if the call can be damaged so.
    ///
    /// It may have been damaged before, by what is looked for later.
    pub fn apply(&self, call: &Compaction, random: &mut Random) -> Option<Compaction> {
        let mut call = call.clone();
        match self.what {
            What::Store(apply) => {
                let mut split = Call {
                    store: call.store,
                    ..Call::default()
                };
                apply(&mut split, random)?;
                call.store = split.store;
            }
            What::Rest(apply) => apply(&mut call, random)?,
        }
        Some(call)
    }
}

/// All damages of compactions, in the order in which they are looked for.
pub fn compactions() -> Vec<CompactDamage> {
    let of_stores = |group: &[Named]| -> Vec<CompactDamage> {
        let damages = group.iter().map(|&(name, apply)| CompactDamage {
            name,
            answer: 1,
            what: What::Store(apply),
        });
        damages.collect()
    };
    let of_rest = REST.iter().map(|&(answer, name, apply)| CompactDamage {
        name,
        answer,
        what: What::Rest(apply),
    });
    let mut damages = of_stores(soundness::DAMAGES);
    damages.extend(of_stores(orders::DAMAGES));
    damages.extend(of_rest);
    damages
}

type Rest = (
    u32,
    &'static str,
    fn(&mut Compaction, &mut Random) -> Option<()>,
);

const REST: &[Rest] = &[
    (2, "a root that is one past those in use", |call, random| {
        put(call, call.store.counts[1], random);
        Some(())
    }),
    (2, "the greatest of all roots", |call, random| {
        put(call, u32::MAX, random);
        Some(())
    }),
    (2, "a last root that is not in use", |call, _| {
        call.roots.push(call.store.counts[1]);
        Some(())
    }),
    (2, "a root that is the count of data", |call, random| {
        let [data, objects, _] = call.store.counts;
        put(call, data, random);
        (data >= objects).then_some(())
    }),
    (6, "a walk that is one short", |call, _| {
        let enough = 2 * call.store.counts[1] as usize;
        call.walk.truncate(enough.checked_sub(1)?);
        Some(())
    }),
    (6, "a walk of one number an object", |call, _| {
        let objects = call.store.counts[1] as usize;
        call.walk.truncate(objects);
        (objects > 0).then_some(())
    }),
    (6, "no walk, and no root", |call, _| {
        call.walk.clear();
        call.roots.clear();
        (call.store.counts[1] > 0).then_some(())
    }),
];

/// Puts a root anywhere in the list.
fn put(call: &mut Compaction, root: u32, random: &mut Random) {
    let place = random.below(call.roots.len() + 1);
    call.roots.insert(place, root);
}

/// Changes a few things of a compaction at random.
pub fn scramble_compaction(call: &Compaction, random: &mut Random) -> Compaction {
    let mut call = call.clone();
    for _ in 0..random.within(1..=3) {
        let store = &mut call.store;
        match random.below(8) {
            0 => nudge_any(&mut store.objects, random),
            1 => nudge_any(&mut store.links, random),
            2 => nudge_any(&mut store.counts, random),
            3 => nudge_any(&mut call.roots, random),
            4 => relink(&mut call, random),
            5 => {
                let less = random.within(1..=4);
                call.walk.truncate(call.walk.len().saturating_sub(less));
            }
            6 => {
                let byte = random.below(store.data.len().max(1));
                if let Some(byte) = store.data.get_mut(byte) {
                    *byte = byte.wrapping_add(1);
                }
            }
            _ => swap_kinds(&mut call, random),
        }
    }
    call
}

fn nudge_any(numbers: &mut [u32], random: &mut Random) {
    if !numbers.is_empty() {
        let place = random.below(numbers.len());
        numbers[place] = nudged(numbers[place], random);
    }
}

/// Leads some link to another object.
fn relink(call: &mut Compaction, random: &mut Random) {
    let objects = call.store.counts[1].max(1) as usize;
    if let Some(row) = any_row(call, random) {
        row[3] = random.below(objects) as u32;
    }
}

/// Makes an order-only link of an offset: it stays sound where no such link is in the way.
fn swap_kinds(call: &mut Compaction, random: &mut Random) {
    if let Some(row) = any_row(call, random) {
        *row = link::order_only(row[0], row[3]);
    }
}

fn any_row<'a>(call: &'a mut Compaction, random: &mut Random) -> Option<&'a mut link::Row> {
    let rows = call.store.links.as_chunks_mut().0;
    let place = random.below(rows.len().max(1));
    rows.get_mut(place)
}
