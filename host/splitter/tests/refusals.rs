//! Refusals have the numbers of the exported functions, and say what to do.

use splitter::Refusal;
use std::{collections::HashSet, error::Error};

#[test]
fn numbers_and_names() {
    let answers = [
        (12, "BadEdition"),
        (1, "Unsound"),
        (2, "NoTable"),
        (9, "BadList"),
        (3, "BadTable"),
        (4, "BadParts"),
        (5, "FewGlyphs"),
        (6, "ShortScratch"),
        (7, "BadLinks"),
        (11, "UnsortedSets"),
        (10, "ManySubtables"),
        (8, "NoRoom"),
    ];
    assert_eq!(Refusal::ALL.len(), answers.len());
    for (refusal, (number, name)) in Refusal::ALL.into_iter().zip(answers) {
        assert_eq!(refusal.number(), number);
        assert_eq!(Refusal::from_number(number), Some(refusal));
        assert_eq!(format!("{refusal:?}"), name);
    }
    assert_eq!([0, 13, u32::MAX].map(Refusal::from_number), [None; 3]);
}

/// What is wrong, and then what to do.
#[test]
fn sentences() {
    let sentences = Refusal::ALL.map(|refusal| refusal.to_string());
    for sentence in &sentences {
        assert_eq!(sentence.split(": ").count(), 2, "{sentence}");
        assert!(!sentence.ends_with('.') && !sentence.contains(['\n', '\t']));
        assert!(!sentence.contains("  "));
    }
    assert_eq!(HashSet::from(sentences).len(), Refusal::ALL.len());
    let error: Box<dyn Error> = Refusal::NoRoom.into();
    assert!(error.source().is_none());
}
