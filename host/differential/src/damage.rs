//! Damaged copies of calls, each just past the edge of a refusal.
//!
//! All start from a call that is lent exactly what it needs and that no check refuses.

mod compactions;
mod editions;
mod links;
mod lookups;
mod marks;
mod orders;
mod parts;
mod room;
mod scramble;
mod scratch;
mod sets;
mod soundness;
mod table;

pub use compactions::{compactions, scramble_compaction, CompactDamage};
pub use lookups::scramble_lookups;
pub use parts::{CLASS_DEFS, COVERAGES};
pub use scramble::scramble;

use crate::{Call, Random};

/// A way to damage a call.
#[derive(Clone, Copy, Debug)]
pub struct Damage {
    /// What is wrong then.
    pub name: &'static str,
    /// What a split, a cut plan and a reading answer.
    pub answers: [u32; 3],
    apply: Apply,
}

/// Damages a call, or gives nothing where the call has not what is to be damaged.
type Apply = fn(&mut Call<u32>, &mut Random) -> Option<()>;

/// What is wrong, and how it is done.
type Named = (&'static str, Apply);

impl Damage {
    /// A damaged copy of a call, if the call can be damaged so.
    ///
    /// It may have been damaged before, by what is looked for later.
    pub fn apply(&self, call: &Call<u32>, random: &mut Random) -> Option<Call<u32>> {
        let mut call = call.clone();
        (self.apply)(&mut call, random)?;
        Some(call)
    }
}

/// All damages of calls for PairPos tables, in the order in which they are looked for.
pub fn all() -> Vec<Damage> {
    damages(&[
        ([12, 12, 0], editions::OTHERS),
        ([1, 1, 1], soundness::DAMAGES),
        ([1, 1, 1], orders::DAMAGES),
        ([2, 2, 2], table::NUMBERS),
        ([3, 3, 3], table::LENGTHS),
        ([4, 4, 4], parts::UNREADABLE),
        ([5, 5, 5], parts::FEW_GLYPHS),
        ([6, 6, 0], scratch::SHORT),
        ([7, 7, 0], links::DAMAGES),
        ([7, 7, 11], links::SETS),
        ([11, 11, 11], sets::DAMAGES),
        ([8, 0, 0], room::STORE),
        ([8, 8, 0], room::LIST),
    ])
}

/// All damages of calls for MarkBasePos tables, in the same order. These have no sets.
pub fn marks() -> Vec<Damage> {
    damages(&[
        ([12, 12, 0], editions::OTHERS),
        ([1, 1, 1], soundness::DAMAGES),
        ([1, 1, 1], orders::DAMAGES),
        ([2, 2, 2], table::NUMBERS),
        ([3, 3, 3], marks::LENGTHS),
        ([4, 4, 4], marks::UNREADABLE),
        ([5, 5, 5], marks::FEW_GLYPHS),
        ([6, 6, 0], scratch::SHORT),
        ([7, 7, 0], marks::LINKS),
        ([8, 0, 0], room::STORE),
        ([8, 8, 0], room::LIST),
    ])
}

/// All damages of calls that enter new tables in lookups, in the order in which they are looked for. A cut
/// plan and a pair reading do not look at lookups.
pub fn lookups() -> Vec<Damage> {
    damages(&[
        ([12, 12, 0], editions::OTHERS),
        ([1, 1, 1], soundness::DAMAGES),
        ([1, 1, 1], orders::DAMAGES),
        ([2, 2, 2], table::NUMBERS),
        ([2, 0, 0], lookups::NUMBERS),
        ([9, 0, 0], lookups::LISTS),
        ([3, 3, 3], table::LENGTHS),
        ([4, 4, 4], parts::UNREADABLE),
        ([5, 5, 5], parts::FEW_GLYPHS),
        ([6, 6, 0], scratch::SHORT),
        ([7, 7, 0], links::DAMAGES),
        ([7, 7, 11], links::SETS),
        ([11, 11, 11], sets::DAMAGES),
        ([10, 0, 0], lookups::MANY),
        ([8, 0, 0], room::STORE),
        ([8, 8, 0], room::LIST),
    ])
}

/// Those of some groups, with what a split, a cut plan and a reading answer to each group.
fn damages(groups: &[([u32; 3], &'static [Named])]) -> Vec<Damage> {
    let damages = groups.iter().flat_map(|&(answers, group)| {
        group.iter().map(move |&(name, apply)| Damage {
            name,
            answers,
            apply,
        })
    });
    damages.collect()
}
