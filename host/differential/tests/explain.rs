//! What the host library explains is what the proved functions answer, and mending what it names changes
//! the answer.

use differential::{
    damage::{self, Damage},
    explained::{as_answered, explanations, mend, proved_answers},
    generate::{self, Case},
    lend, Call, Edition, Functions, Random,
};
use splitter::{
    explain::{Fault, Place},
    Explanation, Kind,
};
use std::collections::BTreeMap;

const STORES: u64 = 16;
const SCRAMBLES: usize = 24;

/// So often one store is mended at most. What was ranges and is a list now would have to be sorted.
const MOST_MENDS: usize = 40;

/// Calls of some functions, and how they are damaged.
struct Calls {
    functions: Functions,
    make: Vec<Make>,
    damages: Vec<Damage>,
    scramble: fn(&Call<u32>, &mut Random) -> Call<u32>,
}

/// Makes the call of a seed, which is lent exactly what it needs.
type Make = fn(u64, Edition, &mut Random) -> Call<u32>;

/// Those of tables of both kinds.
fn of_tables() -> [Calls; 2] {
    let pairs = Calls {
        functions: Functions::Of(Kind::Pairs),
        make: vec![
            |seed, edition, random| exactly(generate::format1(seed), edition, random),
            |seed, edition, random| exactly(generate::format2(seed), edition, random),
        ],
        damages: damage::all(),
        scramble: damage::scramble,
    };
    let marks = Calls {
        functions: Functions::Of(Kind::Marks),
        make: vec![|seed, edition, random| {
            let Case { store, table, .. } = generate::marks(seed);
            lend::marks_exactly(&store, table, edition, random)
        }],
        damages: damage::marks(),
        scramble: damage::scramble,
    };
    [pairs, marks]
}

fn exactly(case: Case, edition: Edition, random: &mut Random) -> Call<u32> {
    lend::exactly(&case.store, case.table, edition, random)
}

/// Those that enter new tables in lookups.
fn in_lookups() -> [Calls; 1] {
    [Calls {
        functions: Functions::InLookups,
        make: vec![|seed, edition, random| {
            lend::in_lookups_exactly(&generate::lookups(seed), edition, random)
        }],
        damages: damage::lookups(),
        scramble: damage::scramble_lookups,
    }]
}

impl Calls {
    fn for_each(&self, mut check: impl FnMut(&Call<u32>, &mut Random)) {
        for seed in 0..STORES {
            for make in &self.make {
                let mut random = Random::new(seed);
                let edition = random.pick(&Edition::ALL);
                let call = make(seed, edition, &mut random);
                check(&call, &mut random);
            }
        }
    }

    /// All that are damaged in one way.
    fn for_each_damaged(&self, mut check: impl FnMut(&Damage, &Call<u32>)) {
        self.for_each(|call, random| {
            for damage in &self.damages {
                if let Some(damaged) = damage.apply(call, random) {
                    check(damage, &damaged);
                }
            }
        });
    }

    fn explanation(&self, call: &Call<u32>) -> Explanation {
        let [explanation, ..] = explanations(self.functions, call);
        explanation
    }

    fn answer(&self, call: &Call<u32>) -> u32 {
        let [answer, ..] = proved_answers(self.functions, call);
        answer
    }

    /// Mends what is named until the answer is another one, and says how often. Nothing where a fault
    /// cannot be mended, or there is no end of them.
    fn mends(&self, call: &Call<u32>) -> Option<usize> {
        let mut call = call.clone();
        let answer = self.answer(&call);
        for count in 0..MOST_MENDS {
            let explanation = self.explanation(&call);
            if explanation.number() != answer {
                assert_ne!(self.answer(&call), answer);
                return Some(count);
            }
            mend(&mut call, explanation.fault()?)?;
            assert_ne!(self.explanation(&call), explanation, "{explanation}");
        }
        None
    }

    fn each_damage_is_explained_and_mended(&self) {
        self.for_each(|call, _| assert_eq!(as_answered(self.functions, call), Ok(())));
        let mut tally = BTreeMap::new();
        self.for_each_damaged(|damage, damaged| {
            let answered = as_answered(self.functions, damaged);
            assert_eq!(answered, Ok(()), "{}", damage.name);
            let name = format!("{}: {}", damage.answers[0], damage.name);
            let [once, more, never] = tally.entry(name).or_insert([0; 3]);
            *match self.mends(damaged) {
                Some(1) => once,
                Some(_) => more,
                None => never,
            } += 1;
        });
        let mut all = [0; 3];
        for (name, counts) in &tally {
            println!("{name}: mended once, in several places, not: {counts:?}");
            assert!(counts[0] + counts[1] > 0, "{name}");
            all.iter_mut()
                .zip(counts)
                .for_each(|(sum, count)| *sum += count);
        }
        let [once, more, never] = all;
        println!("{:?}: {all:?}", self.functions);
        assert!(once > 8 * more && once > 20 * never, "{all:?}");
    }

    /// Tells how often each answer is given.
    fn whatever_is_wrong_is_explained(&self) -> [usize; 13] {
        let mut answers = [0; 13];
        let [mut mended, mut not] = [0; 2];
        self.for_each(|call, random| {
            for _ in 0..SCRAMBLES {
                let call = (self.scramble)(call, random);
                assert_eq!(as_answered(self.functions, &call), Ok(()));
                let answer = self.answer(&call);
                answers[answer as usize] += 1;
                match answer {
                    0 => {}
                    _ if self.mends(&call).is_some() => mended += 1,
                    _ => not += 1,
                }
            }
        });
        println!("answers {answers:?}, mended {mended}, not {not}");
        assert!(mended > 8 * not);
        answers
    }
}

#[test]
fn each_damage_is_explained_and_mended() {
    for calls in of_tables() {
        calls.each_damage_is_explained_and_mended();
    }
}

#[test]
fn each_damage_in_lookups_is_explained_and_mended() {
    for calls in in_lookups() {
        calls.each_damage_is_explained_and_mended();
    }
}

#[test]
fn whatever_is_wrong_is_explained() {
    let answers = of_tables().map(|calls| calls.whatever_is_wrong_is_explained());
    let given = |answer: usize| answers.iter().any(|counts| counts[answer] > 0);
    // 9 and 10 are those of a call over lookups.
    assert!((0..=8).chain([11, 12]).all(given));
}

#[test]
fn whatever_is_wrong_in_lookups_is_explained() {
    let answers = in_lookups().map(|calls| calls.whatever_is_wrong_is_explained());
    assert!([0, 1, 2, 9]
        .into_iter()
        .all(|answer| answers[0][answer] > 0));
}

/// Each kind of fault, as it is said.
#[test]
fn sentences() {
    let mut kinds: BTreeMap<String, String> = BTreeMap::new();
    for calls in of_tables().into_iter().chain(in_lookups()) {
        calls.for_each_damaged(|_, damaged| {
            let explanation = calls.explanation(damaged);
            let fault = explanation.fault().unwrap();
            let name = match fault {
                Fault::Number {
                    place: Place::Bytes { name, .. },
                    ..
                } => format!("bytes {name}"),
                Fault::Number { place, .. } => {
                    let name = format!("{place:?}");
                    name.split([' ', '(']).next().unwrap().into()
                }
                fault => format!("{fault:?}").split(' ').next().unwrap().into(),
            };
            kinds.entry(name).or_insert(explanation.to_string());
        });
    }
    for (kind, sentence) in &kinds {
        println!("{kind}: {sentence}");
        assert!(!sentence.contains("  ") && !sentence.ends_with(['.', ' ']));
    }
    assert!(kinds.len() > 24);
}
