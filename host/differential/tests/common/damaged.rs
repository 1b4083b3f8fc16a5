//! Damaged calls of one kind of table.

use differential::{
    check::{Outcome, Split},
    damage::Damage,
    edit, Call, Random,
};

/// A kind of table.
pub struct Kind {
    /// Calls that are lent exactly what they need.
    pub calls: fn() -> Vec<(Call<u32>, Random)>,
    /// All damages, in the order in which they are looked for.
    pub damages: fn() -> Vec<Damage>,
    /// The numbers by which a split refuses, in that order.
    pub order: &'static [u32],
    /// Changes a few things of a call at random.
    pub scramble: fn(&Call<u32>, &mut Random) -> Call<u32>,
    /// What a split, a cut plan and a reading answer.
    pub answers: fn(&Call<u32>) -> [u32; 3],
    /// A split by the model.
    pub split: fn(&Call<u32>) -> Split,
    /// That a split changes nothing but what it must.
    pub frame: fn(&Split) -> Outcome,
    /// Formats that are not split.
    pub other_formats: &'static [u16],
}

impl Kind {
    fn assert_untouched(&self, call: &Call<u32>, name: &str) {
        let split = (self.split)(call);
        assert_eq!(split.after.count, 0, "{name}");
        assert_eq!((self.frame)(&split), Ok(()), "{name}");
    }

    /// The place of a damage among the answers.
    fn place(&self, damage: &Damage) -> usize {
        let mut order = self.order.iter();
        let place = order.position(|&answer| answer == damage.answers[0]);
        place.expect("an answer of a split")
    }

    pub fn what_is_exactly_enough_is_enough(&self) {
        for (call, _) in (self.calls)() {
            assert_eq!((self.answers)(&call), [0; 3]);
        }
    }

    pub fn each_damage_is_refused_by_its_number(&self) {
        let damages = (self.damages)();
        let mut counts = vec![0; damages.len()];
        for (call, mut random) in (self.calls)() {
            for (damage, count) in damages.iter().zip(&mut counts) {
                if let Some(damaged) = damage.apply(&call, &mut random) {
                    let answers = (self.answers)(&damaged);
                    assert_eq!(answers, damage.answers, "{}", damage.name);
                    self.assert_untouched(&damaged, damage.name);
                    *count += 1;
                }
            }
        }
        for (damage, count) in damages.iter().zip(counts) {
            println!("{} {}: {count}", damage.answers[0], damage.name);
            assert!(count > 10);
        }
    }

    pub fn the_first_that_applies_decides(&self) {
        let damages = (self.damages)();
        let mut tally = vec![vec![0; self.order.len()]; self.order.len()];
        for (call, mut random) in (self.calls)() {
            for _ in 0..60 {
                // Of each answer as often, whatever the number of its damages.
                let mut two = [(); 2].map(|()| {
                    let answer = random.pick(self.order);
                    let of_answer = damages.iter().filter(|it| it.answers[0] == answer);
                    random.pick(&of_answer.copied().collect::<Vec<_>>())
                });
                two.sort_by_key(|damage| self.place(damage));
                let [low, high] = two;
                let [place, higher] = two.map(|damage| self.place(&damage));
                if place == higher {
                    continue;
                }
                let once = high.apply(&call, &mut random);
                if let Some(twice) = once.and_then(|call| low.apply(&call, &mut random)) {
                    let names = format!("{} and {}", low.name, high.name);
                    assert_eq!((self.answers)(&twice)[0], low.answers[0], "{names}");
                    self.assert_untouched(&twice, &names);
                    tally[place][higher] += 1;
                }
            }
        }
        for (place, counts) in tally.iter().enumerate() {
            println!("{} before others: {counts:?}", self.order[place]);
            assert!(counts[place + 1..].iter().all(|&count| count > 0));
        }
    }

    /// Beside each other refusal, and beside all of them at once; the scratch is cleared all the same.
    pub fn an_edition_that_is_none_comes_first(&self) {
        let damages = (self.damages)();
        let of_answer = |answer: u32| -> Vec<Damage> {
            let others = damages.iter().filter(|it| it.answers[0] == answer);
            others.copied().collect()
        };
        let mut most_at_once = 0;
        for (call, mut random) in (self.calls)() {
            for _ in 0..8 {
                let damage = random.pick(&damages);
                if let Some(damaged) = damage.apply(&call, &mut random) {
                    self.assert_edition_first(damaged, &mut random, damage.name);
                }
            }
            let (mut damaged, mut at_once) = (call, 0);
            for &answer in self.order.iter().skip(1).rev() {
                let damage = random.pick(&of_answer(answer));
                if let Some(more) = damage.apply(&damaged, &mut random) {
                    (damaged, at_once) = (more, at_once + 1);
                }
            }
            self.assert_edition_first(damaged, &mut random, "all at once");
            most_at_once = most_at_once.max(at_once);
        }
        println!("{most_at_once} others at once");
        assert!(most_at_once + 2 >= self.order.len() - 1);
    }

    fn assert_edition_first(&self, mut call: Call<u32>, random: &mut Random, name: &str) {
        call.edition = random.pick(&[0, 3, u32::MAX]);
        assert_eq!((self.answers)(&call)[..2], [12; 2], "{name}");
        self.assert_untouched(&call, name);
    }

    pub fn another_format_is_nothing_to_split(&self) {
        for (mut call, mut random) in (self.calls)() {
            let format = random.pick(self.other_formats);
            edit::set_word(&mut call.store, call.table, 0, format);
            call.scratch = Default::default();
            assert_eq!((self.answers)(&call), [0; 3]);
            self.assert_untouched(&call, "another format");
        }
    }

    /// Calls in which anything may be wrong, each with its split by the model.
    pub fn anything_may_be_wrong(&self, mut check: impl FnMut(&Call<u32>, &Split)) {
        for (call, mut random) in (self.calls)() {
            for _ in 0..60 {
                let scrambled = (self.scramble)(&call, &mut random);
                let split = (self.split)(&scrambled);
                assert_eq!((self.frame)(&split), Ok(()));
                check(&scrambled, &split);
            }
        }
    }
}
