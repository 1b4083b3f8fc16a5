//! Other compactions beside the model's: the wrong ones are found, by the model and by what must hold.

use differential::{
    check::{compaction_agrees, kept, Compacted},
    edit, generate, lend, CompactSubject, Compaction, Edition, Model, Random,
};
use oracle::{link, Store};

/// A wrong way to compact, which may ask the model for the right one.
struct Wrong(Way);

type Way = fn(&mut Compaction) -> u32;

impl CompactSubject for Wrong {
    fn compact(&self, call: &mut Compaction) -> u32 {
        (self.0)(call)
    }
}

fn calls() -> impl Iterator<Item = Compaction> {
    (0..40).flat_map(|seed| {
        lend::all_kinds(seed, Edition::First).map(|(_, call)| {
            let mut random = Random::new(seed);
            let roots = generate::roots(&call.store, &[call.table], &mut random);
            lend::compaction_amply(&call.store, roots, &mut random)
        })
    })
}

/// Found wherever it leaves something else than the model does, and that is often.
fn assert_found(wrong: Way) {
    let mut found = 0;
    for call in calls() {
        if compaction_agrees(&Wrong(wrong), &call).is_err() {
            let compacted = Compacted::by(&Wrong(wrong), &call);
            assert!(kept(&compacted).is_err());
            found += 1;
        }
    }
    assert!(found > 20, "{found}");
}

#[test]
fn the_model_agrees_with_itself() {
    for call in calls() {
        assert_eq!(compaction_agrees(&Model, &call), Ok(()));
    }
}

/// A refusal changes nothing, so it is the model alone that finds it.
#[test]
fn refusing_everything_is_found() {
    let refusing = Wrong(|call| {
        call.walk.fill(0);
        call.moved = 0;
        2
    });
    for call in calls() {
        assert!(compaction_agrees(&refusing, &call).is_err());
    }
}

#[test]
fn keeping_everything_is_found() {
    assert_found(|call| {
        call.walk.fill(0);
        call.moved = 0;
        0
    });
}

#[test]
fn keeping_nothing_is_found() {
    assert_found(|call| {
        let roots = std::mem::take(&mut call.roots);
        let answer = Model.compact(call);
        call.roots = vec![0; roots.len()];
        answer
    });
}

#[test]
fn moving_without_renumbering_is_found() {
    assert_found(|call| {
        let old = call.store.links.clone();
        let answer = Model.compact(call);
        let in_use = link::NUMBERS * call.store.counts[2] as usize;
        call.store.links[..in_use].copy_from_slice(&old[..in_use]);
        answer
    });
}

#[test]
fn nothing_said_to_be_moved_is_found() {
    assert_found(|call| {
        let answer = Model.compact(call);
        call.moved = 0;
        answer
    });
}

/// An object whose head stays has not moved.
#[test]
fn all_said_to_be_moved_is_found() {
    assert_found(|call| {
        let answer = Model.compact(call);
        call.moved = call.store.counts[0];
        answer
    });
}

#[test]
fn following_order_only_links_is_found() {
    assert_found(|call| {
        let roots = call.roots.len();
        let mut reached = vec![false; call.store.counts[1] as usize];
        while let Some(&root) = call.roots.iter().find(|&&it| !reached[it as usize]) {
            reached[root as usize] = true;
            let rows = call.store.links_in_use().iter();
            let children = rows.filter(|row| row[0] == root).map(|row| row[3]);
            call.roots.extend(children.collect::<Vec<u32>>());
        }
        let answer = Model.compact(call);
        call.roots.truncate(roots);
        answer
    });
}

/// One of a root that loses its end leads to what has its child's number now.
#[test]
fn an_order_only_link_without_its_end_is_found() {
    assert_found(|call| {
        let (old, roots) = (call.store.clone(), call.roots.clone());
        let answer = Model.compact(call);
        let store = &mut call.store;
        for (was, &is) in roots.into_iter().zip(&call.roots) {
            let rows = old.links_in_use().iter();
            let mut orders = rows.filter(|row| row[0] == was && !link::is_offset(row));
            let more = orders.find(|row| {
                let now = link::order_only(is, row[3]);
                row[3] < store.counts[1] && !store.links_in_use().contains(&now)
            });
            if let Some(row) = more {
                edit::order(store, is, row[3]);
                let end = link::NUMBERS * store.counts[2] as usize;
                store.links.drain(end..end + link::NUMBERS);
                break;
            }
        }
        answer
    });
}

#[test]
fn a_gap_is_found() {
    assert_found(|call| {
        let answer = Model.compact(call);
        let [data, objects, _] = call.store.counts.map(|count| count as usize);
        if objects > 0 && data < call.store.data.len() {
            let row = 2 * (objects - 1);
            let head = call.store.objects[row] as usize;
            call.store.data.copy_within(head..data, head + 1);
            call.store.objects[row] += 1;
            call.store.objects[row + 1] += 1;
            call.store.counts[0] += 1;
        }
        answer
    });
}

/// The kept objects the other way round, with all that belongs to them.
#[test]
fn another_order_is_found() {
    assert_found(|call| {
        let answer = Model.compact(call);
        let old = call.store.clone();
        let last = old.counts[1].wrapping_sub(1);
        let mut new = Store::default();
        for &[head, tail] in old.objects_in_use().iter().rev() {
            new.push_object(&old.data[head as usize..tail as usize]);
        }
        let rows = old.links_in_use().iter();
        let rows = rows.map(|&[parent, position, width, child, kind]| {
            [last - parent, position, width, last - child, kind]
        });
        let mut rows: Vec<link::Row> = rows.collect();
        rows.sort_unstable_by_key(link::rank);
        let Store { data, objects, .. } = new;
        call.store.data[..data.len()].copy_from_slice(&data);
        call.store.objects[..objects.len()].copy_from_slice(&objects);
        let rows = rows.into_flattened();
        call.store.links[..rows.len()].copy_from_slice(&rows);
        call.roots.iter_mut().for_each(|root| *root = last - *root);
        answer
    });
}

#[test]
fn a_root_that_is_not_rewritten_is_found() {
    assert_found(|call| {
        let last = call.roots.last().copied();
        let answer = Model.compact(call);
        if let (Some(root), Some(last)) = (call.roots.last_mut(), last) {
            *root = last;
        }
        answer
    });
}

#[test]
fn what_is_left_between_the_counts_is_found() {
    assert_found(|call| {
        let old = call.store.clone();
        let answer = Model.compact(call);
        let [now, before] = [&call.store, &old].map(|store| store.counts[0] as usize);
        call.store.data[now..before].copy_from_slice(&old.data[now..before]);
        answer
    });
}

#[test]
fn what_is_cleared_behind_the_old_counts_is_found() {
    assert_found(|call| {
        let before = call.store.counts[0] as usize;
        let answer = Model.compact(call);
        call.store.data[before..].fill(0);
        answer
    });
}

#[test]
fn a_walk_that_is_left_is_found() {
    assert_found(|call| {
        let answer = Model.compact(call);
        if let Some(last) = call.walk.last_mut() {
            *last = 1;
        }
        answer
    });
}
