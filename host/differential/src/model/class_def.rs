//! ClassDef, read and written.

use super::{
    numbers::{bytes, head, words},
    ranges::{self, runs, GlyphRange},
};

/// The classes of glyphs. A glyph not named has class 0.
#[derive(Clone, Debug)]
pub struct ClassDef {
    ranges: Vec<GlyphRange>,
}

impl ClassDef {
    /// The class of a glyph.
    pub fn class_of(&self, glyph: u16) -> u16 {
        let place = self.ranges.partition_point(|range| range.last < glyph);
        match self.ranges.get(place) {
            Some(range) if range.first <= glyph => range.beside,
            _ => 0,
        }
    }

    /// All glyphs of a class other than 0, in order.
    pub fn named(&self) -> impl Iterator<Item = (u16, u16)> + '_ {
        let named = self.ranges.iter().filter(|range| range.beside != 0);
        named.flat_map(|range| (range.first..=range.last).map(|glyph| (glyph, range.beside)))
    }
}

/// The class definition, or nothing where the bytes are unreadable.
pub fn read(bytes: &[u8]) -> Option<ClassDef> {
    let ranges = match head(bytes)? {
        ([1, first], rest) => list(first, rest)?,
        ([2, count], rest) => ranges::read(rest, count)?,
        _ => return None,
    };
    Some(ClassDef { ranges })
}

/// The classes from a first glyph on, up to glyph 65,535 at most, and nothing behind them.
fn list(first: u16, rest: &[u8]) -> Option<Vec<GlyphRange>> {
    let ([count], classes) = head(rest)?;
    let exact = classes.len() == 2 * count as usize;
    if !exact || first as usize + count as usize > 65_536 {
        return None;
    }
    let named = (first..=u16::MAX).zip(words(classes));
    let single = |(glyph, class)| GlyphRange {
        first: glyph,
        last: glyph,
        beside: class,
    };
    Some(named.map(single).collect())
}

/// The class definition of ascending glyphs, which names only classes other than 0.
///
/// Format 2 only where that is shorter, or where first to last spans 65,536 glyphs.
pub fn write(glyph_classes: &[(u16, u16)]) -> Vec<u8> {
    let named = glyph_classes.iter().copied().filter(|entry| entry.1 != 0);
    let runs = runs(named);
    let span = span(&runs);
    if 4 + 6 * runs.len() < 6 + 2 * span || span == 65_536 {
        let ranges = runs.iter().flat_map(|run| run.words());
        return bytes([2, runs.len() as u16].into_iter().chain(ranges));
    }
    let mut classes = vec![0; span];
    let first = runs[0].first;
    for run in &runs {
        let start = (run.first - first) as usize;
        classes[start..start + run.glyph_count()].fill(run.beside);
    }
    bytes([1, first, span as u16].into_iter().chain(classes))
}

/// How many glyphs lie from the first to the last.
fn span(runs: &[GlyphRange]) -> usize {
    match (runs.first(), runs.last()) {
        (Some(start), Some(end)) => (end.last - start.first) as usize + 1,
        _ => 0,
    }
}
