//! The calls that are stored.

mod figures;
mod lookups;
mod marks;
mod neighbours;

use super::plain;
use crate::{
    damage::{self, Damage},
    generate::{self, Listed},
    lend, Call, Edition, Functions, Random,
};
use oracle::Store;
use splitter::Kind;

/// A call under a name that has no digit.
#[derive(Clone, Debug)]
pub struct Case {
    /// What it shows.
    pub name: String,
    /// Which functions are called.
    pub functions: Functions,
    /// What it is lent.
    pub call: Call<u32>,
}

const PAIRS: Functions = Functions::Of(Kind::Pairs);
const MARKS: Functions = Functions::Of(Kind::Marks);

/// How many generated stores of pairs in each format are taken, of marks, and of pairs in lookups: by the
/// first edition, and by the second.
const GENERATED: [usize; 2] = [12, 3];
const GENERATED_MARKS: [usize; 2] = [10, 3];
const GENERATED_IN_LOOKUPS: [usize; 2] = [3, 1];

/// Generated stores have at most so many runs.
const MOST_RUNS: usize = 330;

/// Hand-made, generated and damaged.
pub fn all() -> Vec<Case> {
    let mut cases = figures::all();
    cases.extend(neighbours::cases());
    cases.extend(figures::second());
    cases.extend(OF_FORMAT1.cases(GENERATED));
    cases.extend(OF_FORMAT2.cases(GENERATED));
    cases.extend(damaged(PAIRS, &figures::to_damage(), &damage::all()));
    cases.extend(marks::all());
    cases.extend(marks::second());
    cases.extend(OF_MARKS.cases(GENERATED_MARKS));
    cases.extend(damaged(MARKS, &marks::to_damage(), &damage::marks()));
    cases
}

/// The same of calls that enter new tables in lookups.
pub fn in_lookups() -> Vec<Case> {
    let mut cases = lookups::all();
    cases.extend(lookups::second());
    cases.extend(IN_LOOKUPS.cases(GENERATED_IN_LOOKUPS));
    let damages = damage::lookups();
    cases.extend(damaged(
        Functions::InLookups,
        &lookups::to_damage(),
        &damages,
    ));
    cases
}

/// Stores that are generated.
struct Generated {
    name: &'static str,
    functions: Functions,
    generate: fn(u64) -> Listed,
    plain: fn(&Store, u32) -> Store,
    lend: fn(&Listed, Edition, &mut Random) -> Call<u32>,
}

const OF_FORMAT1: Generated = Generated {
    name: "a generated store of format one",
    functions: PAIRS,
    generate: |seed| unlisted(generate::format1(seed)),
    plain: plain::store,
    lend: |case, edition, random| lend::amply(&case.store, case.table, edition, random),
};

const OF_FORMAT2: Generated = Generated {
    name: "a generated store of format two",
    generate: |seed| unlisted(generate::format2(seed)),
    ..OF_FORMAT1
};

const OF_MARKS: Generated = Generated {
    name: "a generated store of marks",
    functions: MARKS,
    generate: |seed| unlisted(generate::marks(seed)),
    plain: plain::marks_store,
    lend: |case, edition, random| lend::marks_amply(&case.store, case.table, edition, random),
};

const IN_LOOKUPS: Generated = Generated {
    name: "a generated store of pairs in lookups",
    functions: Functions::InLookups,
    generate: generate::lookups,
    plain: plain::below,
    lend: lend::in_lookups_amply,
};

/// A store whose call looks at no list.
fn unlisted(case: generate::Case) -> Listed {
    Listed {
        store: case.store,
        list: 0,
        table: case.table,
    }
}

impl Generated {
    /// So many of each edition, of which no two are of one seed.
    fn cases(&self, [first, second]: [usize; 2]) -> Vec<Case> {
        let editions = [
            [Edition::First].repeat(first),
            [Edition::Second].repeat(second),
        ];
        let mut seeds = 0..;
        let case = |edition| Case {
            name: self.name.into(),
            functions: self.functions,
            call: seeds
                .find_map(|seed| self.call(seed, edition))
                .expect("one of very many stores"),
        };
        editions.concat().into_iter().map(case).collect()
    }

    /// The store of a seed, if it is short to store, and the program has room for it.
    fn call(&self, seed: u64, edition: Edition) -> Option<Call<u32>> {
        let mut case = (self.generate)(seed);
        let rows = case.store.objects.len() + case.store.links.len();
        (rows <= MOST_RUNS).then_some(())?;
        case.store = (self.plain)(&case.store, case.table);
        (rows + runs(&case.store.data) <= MOST_RUNS).then_some(())?;
        let call = plain::lent((self.lend)(&case, edition, &mut Random::new(seed)));
        fits(&call).then_some(call)
    }
}

/// Whether the program has room for a call.
pub fn fits(call: &Call<u32>) -> bool {
    let (store, scratch) = (&call.store, &call.scratch);
    let most = [
        store.objects.len(),
        store.links.len(),
        scratch.walk.len(),
        scratch.glyphs.len(),
        scratch.classes.len(),
        scratch.cuts.len(),
        call.list.len(),
    ];
    store.data.len() <= 262_144
        && scratch.glyph_set.len() <= 16_384
        && most.iter().all(|&len| len <= 8_192)
}

fn runs<N: PartialEq>(numbers: &[N]) -> usize {
    numbers.chunk_by(|a, b| a == b).count()
}

/// One call for each damage, which damages one of those made by hand.
fn damaged(functions: Functions, bases: &[Call<u32>], damages: &[Damage]) -> Vec<Case> {
    let mut random = Random::new(0);
    let case = |(i, damage): (usize, &Damage)| {
        let mut calls = bases.iter().cycle().skip(i).take(bases.len());
        let call = calls.find_map(|call| damage.apply(call, &mut random))?;
        Some(Case {
            name: damage.name.replace('2', "two"),
            functions,
            call,
        })
    };
    damages.iter().enumerate().filter_map(case).collect()
}
