//! The glyphs of coverages and class definitions that can be read.

use crate::table::word;

/// The covered glyphs.
pub(crate) fn covered(coverage: &[u8]) -> Vec<usize> {
    let count = word(coverage, 2);
    match word(coverage, 0) {
        1 => (0..count).map(|at| word(coverage, 4 + 2 * at)).collect(),
        _ => ranges(coverage, count)
            .flat_map(|[first, last, _]| first..=last)
            .collect(),
    }
}

/// The classes of these glyphs, which ascend.
pub(crate) fn classes(class_def: &[u8], glyphs: &[usize]) -> Vec<usize> {
    match word(class_def, 0) {
        1 => {
            let (first, count) = (word(class_def, 2), word(class_def, 4));
            let class = |&glyph: &usize| match glyph.checked_sub(first) {
                Some(place) if place < count => word(class_def, 6 + 2 * place),
                _ => 0,
            };
            glyphs.iter().map(class).collect()
        }
        _ => {
            let mut ranges = ranges(class_def, word(class_def, 2)).peekable();
            let class = |&glyph: &usize| {
                while ranges.next_if(|&[_, last, _]| last < glyph).is_some() {}
                match ranges.peek() {
                    Some(&[first, _, class]) if first <= glyph => class,
                    _ => 0,
                }
            };
            glyphs.iter().map(class).collect()
        }
    }
}

/// The ranges of format 2: first glyph, last glyph, and the number beside them.
fn ranges(bytes: &[u8], count: usize) -> impl Iterator<Item = [usize; 3]> + '_ {
    let starts = (4..).step_by(6).take(count);
    starts.map(|at| [at, at + 2, at + 4].map(|place| word(bytes, place)))
}
