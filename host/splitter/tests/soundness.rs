//! Link rows that make a store unsound, and what is said of them.

use splitter::{
    explain,
    explain::{Fault, Place},
    Refusal, StoreRef,
};

/// Four objects: two of eight bytes, one of a single byte, and one of none.
const OBJECTS: [u32; 8] = [0, 8, 8, 16, 16, 17, 17, 17];

/// Links of both kinds, from an object without bytes, and to itself, too.
const ROWS: [[u32; 5]; 6] = [
    [0, 0, 2, 1, 0],
    [0, 6, 2, 1, 0],
    [0, 0, 0, 1, 1],
    [0, 0, 0, 3, 1],
    [1, 0, 2, 3, 0],
    [3, 0, 0, 3, 1],
];

/// What is said of a store that has these rows.
fn said(rows: &[[u32; 5]]) -> (Option<Refusal>, String) {
    let counts = [17, 4, rows.len() as u32];
    let store = StoreRef::new(&[0; 17], &OBJECTS, rows.as_flattened(), &counts);
    let explanation = explain(store, 9);
    assert_eq!(
        store.is_sound(),
        explanation.refusal() != Some(Refusal::Unsound)
    );
    (explanation.refusal(), explanation.to_string())
}

/// What is said of a store in which one row is another.
fn said_with(row: usize, numbers: [u32; 5]) -> String {
    let mut rows = ROWS;
    rows[row] = numbers;
    let (refusal, sentence) = said(&rows);
    assert_eq!(refusal, Some(Refusal::Unsound), "{sentence}");
    sentence
}

/// What is said of a store in which two rows stand the other way round.
fn said_swapped(row: usize) -> String {
    let mut numbers = ROWS;
    numbers.swap(row, row + 1);
    let (refusal, sentence) = said(&numbers);
    assert_eq!(refusal, Some(Refusal::Unsound), "{sentence}");
    sentence
}

#[test]
fn rows_of_both_kinds() {
    for count in 0..=ROWS.len() {
        assert_eq!(said(&ROWS[..count]).0, Some(Refusal::NoTable));
    }
}

/// Of a row the parent is asked first, then child, kind, width and position.
#[test]
fn numbers_of_an_offset() {
    let of = |what: &str| format!("link row 1 of object 0 at position 6: its {what}");
    for (numbers, sentence) in [
        (
            [0, 6, 2, 4, 9],
            of("child is 4; it must be below 4, how many objects are in use"),
        ),
        (
            [0, 6, 3, 1, 2],
            of("kind is 2; it must be 0 or 1, an offset or an order-only link"),
        ),
        ([0, 6, 3, 1, 0], of("width is 3; it must be 2")),
        ([0, 6, 0, 1, 0], of("width is 0; it must be 2")),
        (
            [0, 7, 2, 1, 0],
            "link row 1 of object 0 at position 7: its position is 7; it must be at most 6, to lie within \
             its parent"
                .into(),
        ),
        (
            [4, 6, 2, 1, 2],
            "link row 1 of object 4 at position 6: its parent is 4; it must be below 4, how many objects \
             are in use"
                .into(),
        ),
        (
            [2, 0, 2, 1, 0],
            "object 2: its length is 1; it must be at least 2, to have a link".into(),
        ),
    ] {
        assert_eq!(said_with(1, numbers), sentence);
    }
}

#[test]
fn numbers_of_an_order_only_link() {
    let of = |what: &str| format!("link row 2 of object 0, order-only: its {what}");
    for (numbers, sentence) in [
        (
            [0, 0, 0, 4, 1],
            of("child is 4; it must be below 4, how many objects are in use"),
        ),
        ([0, 0, 2, 1, 1], of("width is 2; it must be 0")),
        ([0, 2, 2, 1, 1], of("width is 2; it must be 0")),
        ([0, 2, 0, 1, 1], of("position is 2; it must be 0")),
        ([0, u32::MAX, 0, 1, 1], of("position is 4294967295; it must be 0")),
        (
            [4, 0, 0, 1, 1],
            "link row 2 of object 4, order-only: its parent is 4; it must be below 4, how many objects \
             are in use"
                .into(),
        ),
    ] {
        assert_eq!(said_with(2, numbers), sentence);
    }
    for kind in [2, 3, u32::MAX] {
        let sentence = format!(
            "link row 2 of object 0 at position 0: its kind is {kind}; it must be 0 or 1, an offset or an \
             order-only link"
        );
        assert_eq!(said_with(2, [0, 0, 0, 1, kind]), sentence);
    }
}

/// By parent, then offsets before order-only links, these by position and those by child.
#[test]
fn rows_out_of_order() {
    for (row, sentence) in [
        (0, "object 0 at position 6 comes before object 0 at position 0"),
        (
            1,
            "the order-only link of object 0 to object 1 comes before object 0 at position 6",
        ),
        (
            2,
            "the order-only link of object 0 to object 3 comes before the order-only link of object 0 to \
             object 1",
        ),
        (
            3,
            "object 1 at position 0 comes before the order-only link of object 0 to object 3",
        ),
        (
            4,
            "the order-only link of object 3 to object 3 comes before object 1 at position 0",
        ),
    ] {
        let rows = format!("link rows {row} and {} are out of order: ", row + 1);
        assert_eq!(said_swapped(row), rows + sentence);
    }
}

/// Two offsets at one position, whatever they lead to, and the same order-only link again.
#[test]
fn two_rows_of_one_place() {
    for child in [0, 1, 2] {
        let sentence = "link rows 0 and 1 both stand at position 0 of object 0";
        assert_eq!(said_with(1, [0, 0, 2, child, 0]), sentence);
    }
    let sentence = "link rows 2 and 3 are both the order-only link of object 0 to object 1";
    assert_eq!(said_with(3, ROWS[2]), sentence);
}

/// For programs a fault has the row and the name of its number.
#[test]
fn faults_in_numbers() {
    let mut rows = ROWS;
    rows[2][4] = 2;
    let counts = [17, 4, 6];
    let store = StoreRef::new(&[0; 17], &OBJECTS, rows.as_flattened(), &counts);
    let explanation = explain(store, 0);
    let Some(Fault::Number { place, found, .. }) = explanation.fault() else {
        panic!("{explanation}");
    };
    let Place::Link { row, column } = place else {
        panic!("{explanation}");
    };
    assert_eq!((row.row, *column, *found), (2, "kind", 2));
    assert!(store.links().nth(2) == Some(row.link));
}
