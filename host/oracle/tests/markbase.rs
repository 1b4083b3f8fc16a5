//! A MarkBasePos table, cut between its two mark classes.

#[path = "helpers/marks.rs"]
mod marks;

use marks::{push_anchor, Marks, BASE_ARRAY, MARK_ARRAY, TABLE};
use oracle::{split_markbase, write::words, Store};

/// One mark of each class and one base, with an anchor of this length for each of the four.
///
/// The anchors of marks are objects 5 and 6, and those of the base 7 and 8.
fn store(anchor_len: usize) -> Store {
    let mut store = Marks::new(2, &[0, 1], 1).store();
    for (array, position) in [
        (MARK_ARRAY, 4),
        (MARK_ARRAY, 8),
        (BASE_ARRAY, 2),
        (BASE_ARRAY, 4),
    ] {
        push_anchor(&mut store, array, position, anchor_len);
    }
    store
}

#[test]
fn anchors_that_fit_are_not_cut() {
    assert_eq!(split_markbase(&store(16_000), TABLE).unwrap().cuts, []);
}

#[test]
fn each_class_takes_its_anchors_along_and_the_old_arrays_stay() {
    let store = store(30_000);
    let split = split_markbase(&store, TABLE).unwrap();
    assert_eq!(split.cuts, [1]);
    assert_eq!(split.new_tables, [11]);

    let bytes_and_links = |object| {
        let bytes = split.graph.vertex_data(object).unwrap().to_vec();
        (bytes, split.graph.links(object).collect::<Vec<_>>())
    };
    let expect =
        |numbers: &[u16], links: &[(u32, usize)]| (words(numbers.iter().copied()), links.to_vec());

    let kept_links = [(2, 15), (4, 2), (8, 9), (10, 10)];
    assert_eq!(
        bytes_and_links(TABLE),
        expect(&[1, 0, 0, 1, 0, 0], &kept_links)
    );
    assert_eq!(bytes_and_links(15), expect(&[1, 1, 10], &[]));
    assert_eq!(bytes_and_links(9), expect(&[1, 0, 0], &[(4, 5)]));
    assert_eq!(bytes_and_links(10), expect(&[1, 0], &[(2, 7)]));

    let new_links = [(2, 12), (4, 2), (8, 13), (10, 14)];
    assert_eq!(bytes_and_links(11), expect(&[1, 0, 0, 1, 0, 0], &new_links));
    assert_eq!(bytes_and_links(12), expect(&[1, 1, 20], &[]));
    assert_eq!(bytes_and_links(13), expect(&[1, 0, 0], &[(4, 6)]));
    assert_eq!(bytes_and_links(14), expect(&[1, 0], &[(2, 8)]));

    assert_eq!(
        bytes_and_links(MARK_ARRAY),
        expect(&[2, 0, 0, 1, 0], &[(4, 5), (8, 6)])
    );
    assert_eq!(
        bytes_and_links(BASE_ARRAY),
        expect(&[1, 0, 0], &[(2, 7), (4, 8)])
    );
}
