//! Compactions of stores at their maxima.

use differential::{
    check::{compacted_again, compaction_agrees, kept, Compacted},
    edit,
    generate::large,
    lend,
    model::{numbers::bytes, soundness::MAXIMA},
    Archive, Call, CompactSubject, Compaction,
    Edition::First,
    Random, Subject,
};
use oracle::{link, Store};

/// A compaction that is not refused.
fn compacted(store: &Store, roots: Vec<u32>) -> Compacted {
    let call = lend::compaction_exactly(store, roots, &mut Random::new(0));
    assert_eq!(compaction_agrees(&Archive, &call), Ok(()));
    let compacted = Compacted::by(&Archive, &call);
    assert_eq!(compacted.answer, 0);
    assert_eq!(kept(&compacted), Ok(()));
    assert_eq!(compacted_again(&Archive, &compacted), Ok(()));
    compacted
}

/// As many bytes, objects and links as there may be. The first object is dead, so all that is left moves.
#[test]
fn a_full_store() {
    let store = large::dense(MAXIMA[1], 0);
    assert_eq!(store.counts.map(|count| count as usize), MAXIMA);
    let after = compacted(&store, vec![1]).after;
    assert_eq!(after.store.counts[1] as usize, MAXIMA[1] - 1);
    assert_eq!(after.moved, after.store.counts[0]);
    assert_eq!(after.roots, [0]);
}

/// All of its objects are roots, the last first; with the first of them nothing goes.
#[test]
fn as_many_roots_as_objects() {
    let store = large::dense(MAXIMA[1], 1);
    let all = || (0..store.counts[1]).rev();
    let after = compacted(&store, all().collect()).after;
    assert_eq!(after.store, store);
    let after = compacted(&store, all().filter(|root| root % 2 == 1).collect()).after;
    assert!(after.store.counts[1] < store.counts[1]);
}

/// A list may be longer than there are objects: a root that stands there once more is walked once.
#[test]
fn a_root_a_million_times() {
    let store = large::dense(20_000, 2);
    let after = compacted(&store, vec![1; 1_000_000]).after;
    assert!(after.roots.iter().all(|&root| root == 0));
}

/// One object leads to the next, from the last to the second.
#[test]
fn the_longest_way() {
    let mut store = Store::default();
    for _ in 0..MAXIMA[1] {
        store.push_object(&[0, 0]);
    }
    let rows = (2..store.counts[1]).map(|object| link::offset(object, 0, object - 1));
    store.links = rows.flatten().collect();
    store.counts[2] = store.counts[1] - 2;
    let last = store.counts[1] - 1;
    let after = compacted(&store, vec![last]).after;
    assert_eq!(after.roots, [last - 1]);
    assert_eq!(after.store.counts[2], store.counts[2]);
}

/// One past any of them the store is not sound.
#[test]
fn past_the_maxima() {
    for place in 0..3 {
        let mut store = large::dense(MAXIMA[1], 3);
        let end = store.counts[0];
        store.data.push(7);
        store.objects.extend([end, end]);
        store.links.extend(link::order_only(end, end));
        store.counts[place] += 1;
        let mut call = Compaction {
            roots: vec![1],
            walk: vec![7; 2 * (MAXIMA[1] + 1)],
            store,
            moved: 7,
        };
        assert_eq!(compaction_agrees(&Archive, &call), Ok(()));
        assert_eq!(Archive.compact(&mut call), 1);
    }
}

/// A split that no buffer is long enough for, since the store is at its maxima, has its room once what is dead
/// is gone.
#[test]
fn a_split_at_the_maxima() {
    let mut store = Store::default();
    let set = |records: u16| {
        let pairs = (0..records).flat_map(|second| [second, 1]);
        bytes([records].into_iter().chain(pairs))
    };
    let table = bytes([1, 0, 4, 0, 2, 0, 0]);
    for object in [table, bytes([1, 2, 10, 20]), set(16_000), set(16_000)] {
        store.push_object(&object);
    }
    for (position, child) in [(2, 1), (10, 2), (12, 3)] {
        store.push_link(0, position, child);
    }
    let mut call = lend::exactly(&store, 0, First, &mut Random::new(0));
    while call.store.counts[1] < MAXIMA[1] as u32 {
        edit::add(&mut call.store, &[]);
    }
    call.scratch.walk.resize(2 * MAXIMA[1], 0);
    assert_eq!(Archive.split_pairpos(&mut call.clone()), 8);
    let after = compacted(&call.store, vec![0]).after;
    let mut behind = Call {
        store: after.store,
        ..call
    };
    assert_eq!(Archive.split_pairpos(&mut behind), 0);
    assert_eq!(behind.count, 1);
}
