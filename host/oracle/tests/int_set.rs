//! The integer set against the standard library's.

use oracle::read::collections::IntSet;
use std::collections::BTreeSet;

/// Runs that end and begin at the borders of words and pages, and at both ends of the domain.
const BORDERS: [u32; 17] = [
    0,
    1,
    62,
    63,
    64,
    126,
    128,
    510,
    511,
    512,
    513,
    1_023,
    1_536,
    65_535,
    65_536,
    u32::MAX - 1,
    u32::MAX,
];

fn ranges_of(set: &BTreeSet<u32>) -> Vec<(u32, u32)> {
    let mut ranges: Vec<(u32, u32)> = Vec::new();
    for &value in set {
        match ranges.last_mut() {
            Some((_, last)) if value - *last == 1 => *last = value,
            _ => ranges.push((value, value)),
        }
    }
    ranges
}

fn assert_same(set: &IntSet<u32>, expected: &BTreeSet<u32>) {
    assert!(set.iter().eq(expected.iter().copied()));
    assert_eq!(set.len(), expected.len() as u64);
    assert_eq!(set.is_empty(), expected.is_empty());
    assert_eq!(set.first(), expected.first().copied());
    assert_eq!(set.last(), expected.last().copied());
    let ranges: Vec<_> = set
        .iter_ranges()
        .map(|range| (*range.start(), *range.end()))
        .collect();
    assert_eq!(ranges, ranges_of(expected));
}

/// Fixed numbers that look random, dense enough for runs.
fn scattered(seed: u32, bound: u32) -> impl Iterator<Item = u32> {
    std::iter::successors(Some(seed), |n| {
        Some(n.wrapping_mul(1_664_525).wrapping_add(1_013_904_223))
    })
    .map(move |n| (n >> 8) % bound)
}

#[test]
fn numbers_at_borders_are_found_in_order() {
    let mut set = IntSet::empty();
    let mut expected = BTreeSet::new();
    assert_same(&set, &expected);
    for value in BORDERS.into_iter().rev().chain(BORDERS) {
        assert_eq!(set.insert(value), expected.insert(value));
        assert_same(&set, &expected);
    }
}

#[test]
fn unions_hold_both_sets() {
    for (seed, bound) in [(1, 300), (2, 3_000), (3, 70_000)] {
        let left: BTreeSet<u32> = scattered(seed, bound).take(900).collect();
        let right: BTreeSet<u32> = scattered(seed + 10, bound).take(900).collect();
        let mut set = IntSet::empty();
        let mut more = IntSet::empty();
        left.iter().for_each(|&value| assert!(set.insert(value)));
        right.iter().for_each(|&value| assert!(more.insert(value)));
        set.union(&more);
        assert_same(&set, &left.union(&right).copied().collect());
        set.clear();
        assert_same(&set, &BTreeSet::new());
    }
}

#[test]
fn all_glyphs_are_one_run() {
    let mut set = IntSet::<u16>::empty();
    (0..=u16::MAX).for_each(|glyph| assert!(set.insert(glyph)));
    assert!(set.iter_ranges().eq([0..=u16::MAX]));
    assert_eq!(set.len(), 65_536);
}
