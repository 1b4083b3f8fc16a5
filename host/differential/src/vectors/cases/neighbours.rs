//! Calls to which two neighbouring refusals apply at once: the first one answers.

use super::{super::plain, Case, PAIRS};
use crate::{
    by_hand::{format1_slots, lengthen},
    edit, lend,
    model::numbers::bytes,
    Call, Edition, Model, Random, Subject,
};
use oracle::{link, Store};

/// Two neighbours in the order in which refusals are looked for.
pub struct Neighbours {
    /// Which they are.
    pub name: &'static str,
    /// Both apply to this call.
    pub both: Call<u32>,
    /// And to this one the second alone, as what makes the first apply is mended.
    pub second: Call<u32>,
    /// What a split of each answers.
    pub answers: [u32; 2],
}

/// A call, changed.
fn with(call: &Call<u32>, change: impl Fn(&mut Call<u32>)) -> Call<u32> {
    let mut call = call.clone();
    change(&mut call);
    call
}

/// A table of format 1 with one set of a length, under these glyphs, in so many slots; it is lent what it needs.
fn call(glyphs: &[u16], slots: usize, length: usize) -> Call<u32> {
    let mut store = format1_slots(glyphs, slots);
    let set = store.push_object(&bytes([1, 5, 7]));
    store.push_link(0, 10, set);
    lengthen(&mut store, set, length);
    lent(&store)
}

fn lent(store: &Store) -> Call<u32> {
    let call = lend::exactly(store, 0, Edition::First, &mut Random::new(0));
    plain::lent(call)
}

/// A store of one object.
fn one_object(object: &[u8]) -> Call<u32> {
    let mut store = Store::default();
    store.push_object(object);
    lent(&store)
}

fn no_edition(call: &mut Call<u32>) {
    call.edition = 0;
}

fn rows_turned(call: &mut Call<u32>) {
    call.store.links.rotate_left(link::NUMBERS);
}

fn not_in_use(call: &mut Call<u32>) {
    call.table = call.store.counts[1];
}

fn short_cuts(call: &mut Call<u32>) {
    call.scratch.cuts.pop();
}

fn link_at_no_slot(call: &mut Call<u32>) {
    edit::link(&mut call.store, 0, 4, 1);
}

fn long_set(call: &mut Call<u32>) {
    edit::replace(&mut call.store, 2, &[0, 1, 0, 5, 0, 7, 0]);
}

/// Each two neighbours, in the order of the table.
pub fn all() -> Vec<Neighbours> {
    let uncut = call(&[10], 1, 6);
    let cut = call(&[10], 1, 65_518);
    let few = call(&[10], 2, 6);
    let few = with(&few, |call| {
        call.scratch.cuts.resize(2, 15);
        call.scratch.glyphs.resize(1, 13);
        call.scratch.classes.resize(1, 14);
        call.scratch.walk.resize(6, 11);
    });
    let unreadable =
        |call: &mut Call<u32>| edit::replace(&mut call.store, 1, &bytes([1, 2, 20, 10]));
    let few_of_three = with(&call(&[10, 20], 3, 6), |call| {
        call.scratch.cuts.resize(3, 15);
        call.scratch.walk.resize(6, 11);
    });
    let neighbours = |name, both, second, answers| Neighbours {
        name,
        both,
        second,
        answers,
    };
    vec![
        neighbours(
            "no edition, and rows out of order",
            with(&with(&uncut, no_edition), rows_turned),
            with(&uncut, rows_turned),
            [12, 1],
        ),
        neighbours(
            "rows out of order, and a table not in use",
            with(&with(&uncut, rows_turned), not_in_use),
            with(&uncut, not_in_use),
            [1, 2],
        ),
        neighbours(
            "a table not in use, which has no bytes",
            with(&one_object(&[]), not_in_use),
            one_object(&[]),
            [2, 3],
        ),
        neighbours(
            "a table of one byte, which is no format",
            one_object(&[3]),
            one_object(&[3, 0]),
            [3, 0],
        ),
        neighbours(
            "another format, of no exact length",
            one_object(&[0, 3, 9]),
            one_object(&[0, 1, 9]),
            [0, 3],
        ),
        neighbours(
            "a byte too many, and no coverage",
            one_object(&[&bytes([1, 0, 0, 0, 0])[..], &[0]].concat()),
            one_object(&bytes([1, 0, 0, 0, 0])),
            [3, 4],
        ),
        neighbours(
            "an unreadable coverage of too few glyphs",
            with(&few_of_three, unreadable),
            few_of_three.clone(),
            [4, 5],
        ),
        neighbours(
            "too few glyphs, and a scratch too short",
            with(&few, short_cuts),
            with(&call(&[10, 20], 2, 6), short_cuts),
            [5, 6],
        ),
        neighbours(
            "a scratch too short, and a link at no slot",
            with(&with(&uncut, short_cuts), link_at_no_slot),
            with(&uncut, link_at_no_slot),
            [6, 7],
        ),
        neighbours(
            "a link at no slot, and a set that is too long",
            with(&with(&uncut, link_at_no_slot), long_set),
            with(&uncut, long_set),
            [7, 11],
        ),
        neighbours(
            "a set that is too long, and no cut",
            with(&uncut, long_set),
            uncut.clone(),
            [11, 0],
        ),
        neighbours(
            "a set that is too long, and no room for the cut",
            with(&with(&cut, long_set), |call| call.list.clear()),
            with(&cut, |call| call.list.clear()),
            [11, 8],
        ),
        neighbours(
            "no cut, and no room",
            with(&uncut, |call| call.list.clear()),
            with(&cut, |call| call.list.clear()),
            [0, 8],
        ),
    ]
}

impl Neighbours {
    /// The call to which both apply; that both do, the model has to say.
    fn case(mut self) -> Case {
        let call = self.both.clone();
        let answers = [&mut self.both, &mut self.second].map(|call| Model.split_pairpos(call));
        assert_eq!(answers, self.answers, "{}", self.name);
        let name = self.name.into();
        Case {
            name,
            functions: PAIRS,
            call,
        }
    }
}

/// Those that are stored.
pub fn cases() -> Vec<Case> {
    all().into_iter().map(Neighbours::case).collect()
}

#[cfg(test)]
mod tests {
    use super::{all, cases};

    /// So that both apply: the first one answers, and where it is mended the second does.
    #[test]
    fn the_first_of_two_answers() {
        assert_eq!(cases().len(), 13);
    }

    /// Each refusal is the first of two, and the second, but for 12 and 8.
    #[test]
    fn each_refusal_has_its_neighbours() {
        let answers = all().into_iter().map(|neighbours| neighbours.answers);
        let [firsts, seconds]: [Vec<u32>; 2] =
            answers.fold([vec![], vec![]], |[mut a, mut b], [first, second]| {
                a.push(first);
                b.push(second);
                [a, b]
            });
        let answers = [12, 1, 2, 3, 4, 5, 6, 7, 11, 8];
        assert!(answers[..9].iter().all(|answer| firsts.contains(answer)));
        assert!(answers[1..].iter().all(|answer| seconds.contains(answer)));
    }
}
