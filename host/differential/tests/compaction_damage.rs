//! Damaged compactions are refused by their numbers, and nothing changes: by the model, by the archive as by the
//! model, and for the reason that the host library gives.

use differential::{
    check::{compaction_agrees, kept, Compacted},
    damage::{self, CompactDamage},
    explained::compaction_as_answered,
    generate, lend, Archive, Compaction, Edition, Random,
};

/// The numbers by which a compaction refuses, in the order in which they are asked.
const ORDER: [u32; 3] = [1, 2, 6];

/// Compactions that are lent exactly what they need.
fn calls() -> impl Iterator<Item = (Compaction, Random)> {
    (0..60).flat_map(|seed| {
        lend::all_kinds(seed, Edition::First).map(|(_, call)| {
            let mut random = Random::new(!seed);
            let named = [call.table, call.lookup_list];
            let roots = generate::roots(&call.store, &named, &mut random);
            let call = lend::compaction_exactly(&call.store, roots, &mut random);
            (call, random)
        })
    })
}

/// What both answer, and the library explains.
fn answer(call: &Compaction, name: &str) -> u32 {
    assert_eq!(compaction_agrees(&Archive, call), Ok(()), "{name}");
    assert_eq!(compaction_as_answered(call), Ok(()), "{name}");
    let compacted = Compacted::by(&Archive, call);
    assert_eq!(kept(&compacted), Ok(()), "{name}");
    compacted.answer
}

#[test]
fn what_is_exactly_enough_is_enough() {
    for (call, _) in calls() {
        assert_eq!(answer(&call, "nothing is damaged"), 0);
    }
}

#[test]
fn each_damage_is_refused_by_its_number() {
    let damages = damage::compactions();
    let mut counts = vec![0; damages.len()];
    for (call, mut random) in calls() {
        for (damage, count) in damages.iter().zip(&mut counts) {
            if let Some(damaged) = damage.apply(&call, &mut random) {
                let name = damage.name;
                assert_eq!(answer(&damaged, name), damage.answer, "{name}");
                *count += 1;
            }
        }
    }
    for (damage, count) in damages.iter().zip(counts) {
        println!("{} {}: {count}", damage.answer, damage.name);
        assert!(count > 10, "{}", damage.name);
    }
}

#[test]
fn the_first_that_applies_decides() {
    let damages = damage::compactions();
    let place = |damage: &CompactDamage| ORDER.iter().position(|&it| it == damage.answer);
    let mut tally = [[0; ORDER.len()]; ORDER.len()];
    for (call, mut random) in calls() {
        for _ in 0..20 {
            let mut two = [random.pick(&damages), random.pick(&damages)];
            two.sort_by_key(place);
            let [low, high] = two;
            let [Some(first), Some(later)] = two.map(|damage| place(&damage)) else {
                panic!("{} or {}", low.name, high.name);
            };
            if first == later {
                continue;
            }
            let once = high.apply(&call, &mut random);
            if let Some(twice) = once.and_then(|call| low.apply(&call, &mut random)) {
                let names = format!("{} and {}", low.name, high.name);
                assert_eq!(answer(&twice, &names), low.answer, "{names}");
                tally[first][later] += 1;
            }
        }
    }
    println!("{tally:?}");
    assert!([tally[0][1], tally[0][2], tally[1][2]]
        .iter()
        .all(|&count| count > 10));
}

/// Whatever a compaction is lent, it is refused and nothing changes, or it keeps what it must.
#[test]
fn anything_may_be_wrong() {
    let mut answers = [0; 7];
    for (call, mut random) in calls() {
        for _ in 0..20 {
            let scrambled = damage::scramble_compaction(&call, &mut random);
            answers[answer(&scrambled, "at random") as usize] += 1;
        }
    }
    println!("{answers:?}");
    assert!([0, 1, 2, 6]
        .iter()
        .all(|&answer: &usize| answers[answer] > 50));
}
