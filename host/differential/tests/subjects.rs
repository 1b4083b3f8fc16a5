//! Other subjects beside the model: the wrong ones are found.

use differential::{
    check::{
        all_agree, attachment_agrees, entered, lookups_agree, marks_agree, marks_as_the_oracle,
        pair_agrees, plan_agrees, split_agrees, Split,
    },
    edit, generate,
    lend::{self, Need},
    Attachment, Call,
    Edition::First,
    InLookups, LookupSubject, MarkSubject, Marks, Model, Pair, Random, Subject, Tally,
};
use oracle::{link, Store};

/// A wrong way to split, which may ask the model for the right one.
struct Wrong(Way);

type Right = fn(&mut Call<u32>) -> u32;
type Way = fn(&mut Call<u32>, Right) -> u32;

impl Subject for Wrong {
    fn split_pairpos(&self, call: &mut Call<u32>) -> u32 {
        (self.0)(call, |call| Model.split_pairpos(call))
    }

    fn cut_plan(&self, call: &mut Call<u16>) -> u32 {
        let answer = Model.cut_plan(call);
        move_last_place(call);
        answer
    }

    fn read_pair(&self, store: &Store, table: u32, glyphs: [u16; 2], pair: &mut Pair) -> u32 {
        let answer = Model.read_pair(store, table, glyphs, pair);
        pair.values[15] += 1;
        answer
    }
}

impl MarkSubject for Wrong {
    fn split_markbasepos(&self, call: &mut Call<u32>) -> u32 {
        (self.0)(call, |call| Model.split_markbasepos(call))
    }

    fn cut_plan_markbasepos(&self, call: &mut Call<u16>) -> u32 {
        let answer = Model.cut_plan_markbasepos(call);
        move_last_place(call);
        answer
    }

    fn read_mark(
        &self,
        store: &Store,
        table: u32,
        glyphs: [u16; 2],
        attachment: &mut Attachment,
    ) -> u32 {
        let answer = Model.read_mark(store, table, glyphs, attachment);
        attachment.anchors[1] += 1;
        answer
    }
}

impl LookupSubject for Wrong {
    fn split_in_lookups(&self, call: &mut Call<u32>) -> u32 {
        (self.0)(call, |call| Model.split_in_lookups(call))
    }
}

fn move_last_place(call: &mut Call<u16>) {
    if let Some(place) = call.list[..call.count as usize].last_mut() {
        *place += 1;
    }
}

/// Splits of PairPos tables that are cut more than once.
fn calls() -> impl Iterator<Item = Call<u32>> {
    let cases = (0..40).flat_map(|seed| [generate::format1(seed), generate::format2(seed)]);
    let cut = cases.filter(|case| Need::of(&case.store, case.table, First).list > 1);
    cut.map(|case| lend::amply(&case.store, case.table, First, &mut Random::new(0)))
}

/// Splits of MarkBasePos tables that are cut more than once.
fn mark_calls() -> impl Iterator<Item = Call<u32>> {
    let cases = (0..80).map(generate::marks);
    let cut = cases.filter(|case| Need::of_marks(&case.store, case.table, First).list > 1);
    cut.map(|case| lend::marks_amply(&case.store, case.table, First, &mut Random::new(0)))
}

/// Splits of PairPos tables that are cut more than once, in lookups.
fn lookup_calls() -> impl Iterator<Item = Call<u32>> {
    let calls = (0..80).map(|seed| {
        lend::in_lookups_amply(&generate::lookups(seed), First, &mut Random::new(seed))
    });
    calls.filter(|call| Need::of(&call.store, call.table, First).list > 1)
}

fn assert_found(wrong: Way) {
    for call in calls() {
        assert!(split_agrees(&Wrong(wrong), &call).is_err());
    }
    for call in mark_calls() {
        assert!(marks_agree(&Wrong(wrong), &call).is_err());
    }
    for call in lookup_calls() {
        assert!(lookups_agree(&Wrong(wrong), &call).is_err());
    }
}

#[test]
fn the_model_agrees_with_itself() {
    assert!(calls().count() > 20 && mark_calls().count() > 20 && lookup_calls().count() > 20);
    for call in calls() {
        assert_eq!(all_agree(&Model, &call), Ok(()));
    }
    for call in mark_calls() {
        assert_eq!(marks_agree(&Model, &call), Ok(()));
    }
    for call in lookup_calls() {
        assert_eq!(lookups_agree(&Model, &call), Ok(()));
    }
}

#[test]
fn refusing_everything_is_found() {
    assert_found(|call, _| {
        call.scratch.clear();
        call.count = 0;
        8
    });
}

#[test]
fn never_cutting_is_found() {
    assert_found(|call, _| {
        call.scratch.clear();
        call.count = 0;
        0
    });
}

#[test]
fn doing_nothing_is_found() {
    assert_found(|_, _| 0);
}

/// The first new table is written and the rest are only numbered.
#[test]
fn numbering_without_writing_is_found() {
    assert_found(|call, model| {
        let answer = model(call);
        let [head, tail] = call.store.objects_in_use()[call.list[1] as usize];
        call.store.data[head as usize..tail as usize].fill(0);
        answer
    });
}

#[test]
fn scratch_that_is_left_is_found() {
    assert_found(|call, model| {
        let answer = model(call);
        call.scratch.cuts[0] = 1;
        answer
    });
}

#[test]
fn a_wrong_byte_is_found() {
    assert_found(|call, model| {
        let answer = model(call);
        *call.store.data.last_mut().unwrap() ^= 1;
        answer
    });
}

#[test]
fn a_wrong_row_past_the_counts_is_found() {
    assert_found(|call, model| {
        let answer = model(call);
        *call.store.objects.last_mut().unwrap() += 1;
        answer
    });
}

/// The splits are right, so it is the reading that is found.
#[test]
fn wrong_places_and_readings_are_found() {
    let wrong = Wrong(|call, model| model(call));
    for call in calls() {
        assert_eq!(split_agrees(&wrong, &call), Ok(()));
        assert!(plan_agrees(&wrong, &call.to_plan()).is_err());
        assert!(pair_agrees(&wrong, &call.store, call.table, [0, 0]).is_err());
    }
    for call in mark_calls() {
        let found = marks_agree(&wrong, &call).unwrap_err();
        assert!(found.starts_with("list["), "{found}");
        assert!(attachment_agrees(&wrong, &call.store, call.table, [0, 0]).is_err());
    }
}

/// Another place, a new table's other class count, a kept mark array with a record more, and a new base
/// array that is something else.
#[test]
fn what_is_not_the_oracles_is_found() {
    let wrong: [fn(&mut Split); 4] = [
        |split| split.places[0] += 1,
        |split| {
            let table = split.new_tables()[0];
            edit::set_word(&mut split.after.store, table, 6, u16::MAX);
        },
        |split| {
            let store = &mut split.after.store;
            let mark_array = edit::child_at(store, split.before.table, 8).unwrap();
            let longer = [edit::bytes(store, mark_array), &[0, 9, 0, 0]].concat();
            edit::replace(store, mark_array, &longer);
        },
        |split| {
            let base_array = edit::child_at(&split.after.store, split.new_tables()[0], 10).unwrap();
            let nothing = edit::add(&mut split.after.store, &[]);
            edit::replace(&mut split.after.store, base_array, &[0; 4]);
            edit::link(&mut split.after.store, base_array, 2, nothing);
        },
    ];
    for call in mark_calls() {
        let split = Split::by(&Marks(&Model), &call);
        let found = |split: &Split| marks_as_the_oracle(split, &mut Tally::default()).is_err();
        assert!(!found(&split));
        for change in wrong {
            let mut split = split.clone();
            change(&mut split);
            assert!(found(&split));
        }
    }
}

/// A link that still leads to an old lookup, a new lookup's other flag, its last subtable another one, and
/// its other count.
#[test]
fn what_is_not_entered_is_found() {
    let wrong: [fn(&mut Split); 4] = [
        |split| {
            let rows = split.before.store.links_in_use().iter();
            let moved = rows.copied().find(|&[parent, position, _, child, kind]| {
                let now = edit::child_at(&split.after.store, parent, position);
                kind == link::OFFSET && parent != split.before.table && now != Some(child)
            });
            let [parent, position, _, child, _] = moved.unwrap();
            edit::link(&mut split.after.store, parent, position, child);
        },
        |split| {
            let new = split.after.store.counts[1] - 1;
            let flag = edit::bytes(&split.after.store, new)[2];
            edit::set_word(&mut split.after.store, new, 2, u16::from(!flag));
        },
        |split| {
            let last = link::NUMBERS * split.after.store.counts[2] as usize - 2;
            split.after.store.links[last] ^= 1;
        },
        |split| {
            let lookup = edit::child_at(&split.after.store, split.before.lookup_list, 2);
            let lookup = lookup.unwrap_or(split.before.lookup_list);
            let count = edit::bytes(&split.after.store, lookup)[5];
            edit::set_word(&mut split.after.store, lookup, 4, u16::from(!count));
        },
    ];
    for call in lookup_calls() {
        let split = Split::by(&InLookups(&Model), &call);
        let found = |split: &Split| entered(&Model, split, &mut Tally::default()).is_err();
        assert!(!found(&split));
        for (way, change) in wrong.iter().enumerate() {
            let mut split = split.clone();
            change(&mut split);
            assert!(found(&split), "{way}");
        }
    }
}
