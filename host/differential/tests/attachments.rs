//! Attachment readings by hand, through the model and the archive.

use differential::{
    by_hand::{marks, push_anchor, BASE_ARRAY, BASE_COVERAGE, MARK_ARRAY},
    check::attachment_agrees,
    edit,
    model::coverage,
    Archive, Attachment, MarkSubject, Model,
};
use oracle::Store;

const NOTHING: Attachment = Attachment {
    anchors: [0; 2],
    found: 0,
};

/// The answer, and what is given in place of what stood there.
fn read(store: &Store, table: u32, mark: u16, base: u16) -> (u32, Attachment) {
    let mut attachment = Attachment {
        anchors: [9; 2],
        found: 9,
    };
    let answer = Model.read_mark(store, table, [mark, base], &mut attachment);
    let agrees = attachment_agrees(&Archive, store, table, [mark, base]);
    assert_eq!(agrees, Ok(()));
    (answer, attachment)
}

fn found(mark: u32, base: u32) -> (u32, Attachment) {
    let anchors = [mark + 1, base + 1];
    (0, Attachment { anchors, found: 1 })
}

/// Marks 10, 20 and 30 of classes 1, 0 and 1, and bases 5 and 15. Objects 5 and 6 are the anchors of
/// marks 10 and 20, and 7, 8 and 9 those of base 5 in both classes and of base 15 in class 1.
fn store() -> Store {
    let mut store = marks(2, &[1, 0, 1], 2);
    for (array, position) in [
        (MARK_ARRAY, 4),
        (MARK_ARRAY, 8),
        (BASE_ARRAY, 2),
        (BASE_ARRAY, 4),
        (BASE_ARRAY, 8),
    ] {
        push_anchor(&mut store, array, position, 6);
    }
    store
}

#[test]
fn the_anchors_of_the_marks_class() {
    let store = store();
    assert_eq!(read(&store, 0, 10, 5), found(5, 8));
    assert_eq!(read(&store, 0, 10, 15), found(5, 9));
    assert_eq!(read(&store, 0, 20, 5), found(6, 7));
}

/// No anchor of the base, none of the mark, a mark and a base that are not covered.
#[test]
fn a_missing_link_is_no_attachment() {
    for (mark, base) in [(20, 15), (30, 5), (30, 15), (11, 5), (10, 6), (5, 10)] {
        assert_eq!(read(&store(), 0, mark, base), (0, NOTHING));
    }
}

/// Glyphs that are covered past the marks, and past the bases.
#[test]
fn glyphs_past_the_arrays_have_no_attachment() {
    let mut store = store();
    edit::replace(&mut store, 1, &coverage::write(&[10, 20, 30, 40]));
    edit::replace(&mut store, BASE_COVERAGE, &coverage::write(&[5, 15, 25]));
    for (mark, base) in [(40, 5), (10, 25), (40, 25)] {
        assert_eq!(read(&store, 0, mark, base), (0, NOTHING));
    }
    assert_eq!(read(&store, 0, 10, 5), found(5, 8));
}

/// A base coverage that is shorter than the base array is no fault.
#[test]
fn uncovered_bases_have_no_attachment() {
    let mut store = store();
    edit::replace(&mut store, BASE_COVERAGE, &coverage::write(&[15]));
    assert_eq!(read(&store, 0, 10, 15), found(5, 8));
    assert_eq!(read(&store, 0, 10, 5), (0, NOTHING));
}

/// Neither links at no slot nor a way back to the table are asked for, and slots are found beside
/// them.
#[test]
fn links_at_no_slot_are_not_asked_for() {
    let mut store = store();
    edit::link(&mut store, 0, 0, 5);
    edit::link(&mut store, MARK_ARRAY, 2, 6);
    edit::link(&mut store, MARK_ARRAY, 3, 6);
    edit::link(&mut store, BASE_ARRAY, 0, 5);
    edit::link(&mut store, BASE_ARRAY, 3, 5);
    edit::link(&mut store, BASE_ARRAY, 8, 0);
    assert_eq!(read(&store, 0, 10, 5), found(5, 8));
    assert_eq!(read(&store, 0, 10, 15), found(5, 0));
    assert_eq!(read(&store, 0, 30, 5), (0, NOTHING));
}

#[test]
fn refusals_give_zeros() {
    let refused = |change: fn(&mut Store)| {
        let mut store = store();
        change(&mut store);
        let (answer, attachment) = read(&store, 0, 10, 5);
        assert_eq!(attachment, NOTHING);
        answer
    };
    assert_eq!(refused(|store| store.links[2] = 4), 1);
    assert_eq!(read(&store(), 10, 10, 5), (2, NOTHING));
    assert_eq!(refused(|store| edit::replace(store, 0, &[0, 1, 0, 0])), 3);
    assert_eq!(refused(|store| edit::set_word(store, MARK_ARRAY, 2, 2)), 4);
    let few_glyphs = |store: &mut Store| edit::replace(store, 1, &coverage::write(&[10, 20]));
    assert_eq!(refused(few_glyphs), 5);
    assert_eq!(refused(|store| edit::set_word(store, 0, 0, 2)), 0);
}
