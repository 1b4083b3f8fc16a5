//! Glyphs, coverage and class definitions in every form that can be read.

use crate::{
    model::{
        numbers::bytes,
        ranges::{runs, GlyphRange},
    },
    Random,
};

/// So many ascending glyphs, close together or far apart, sometimes up to the last there is.
pub fn glyphs(random: &mut Random, count: usize) -> Vec<u16> {
    let room = (65_536 - count) / count.max(1);
    let most = random.pick(&[0, 1, 3, room]).min(room);
    let runs = random.within(1..=8);
    let mut next = random.within(0..=room - most);
    let mut glyphs = Vec::with_capacity(count);
    for _ in 0..count {
        if random.one_in(runs) {
            next += random.within(0..=most);
        }
        glyphs.push(next as u16);
        next += 1;
    }
    if let (true, [first, .., last]) = (random.one_in(6), &mut glyphs[..]) {
        (*first, *last) = (random.pick(&[0, *first]), u16::MAX);
    }
    glyphs
}

/// The coverage of ascending glyphs, as a list or as ranges.
pub fn coverage(random: &mut Random, glyphs: &[u16]) -> Vec<u8> {
    if glyphs.len() > 65_535 || random.one_in(2) {
        return coverage_ranges(random, glyphs);
    }
    bytes([1, glyphs.len() as u16].iter().chain(glyphs).copied())
}

/// The coverage of ascending glyphs as ranges, which may end before they must.
///
/// It can be read as a class definition too: a glyph's class is then its range's start index.
pub fn coverage_ranges(random: &mut Random, glyphs: &[u16]) -> Vec<u8> {
    let mut ranges = pieces(random, runs(glyphs.iter().map(|&glyph| (glyph, 0))));
    let mut index = 0;
    for range in &mut ranges {
        range.beside = index as u16;
        index += range.glyph_count();
    }
    in_ranges(&ranges)
}

/// The class definition of ascending glyphs, in either format. It may name class 0.
pub fn class_def(random: &mut Random, glyph_classes: &[(u16, u16)]) -> Vec<u8> {
    let first = glyph_classes.first().map_or(0, |entry| entry.0);
    let last = glyph_classes.last().map_or(0, |entry| entry.0);
    let span = (last - first) as usize + 1;
    if span < 65_536 && span < 8 * glyph_classes.len() + 20 && random.one_in(2) {
        return class_list(random, first, span, glyph_classes);
    }
    let names_0 = random.one_in(3);
    let named = glyph_classes.iter().copied();
    let named = named.filter(|&(_, class)| names_0 || class != 0);
    in_ranges(&pieces(random, runs(named)))
}

/// Format 1 from the first glyph on, or from one before it.
fn class_list(
    random: &mut Random,
    first: u16,
    span: usize,
    glyph_classes: &[(u16, u16)],
) -> Vec<u8> {
    let before = random.below(3).min(first as usize).min(65_535 - span);
    let start = first - before as u16;
    let mut classes = vec![0; before + span];
    for &(glyph, class) in glyph_classes {
        classes[(glyph - start) as usize] = class;
    }
    let header = [1, start, classes.len() as u16];
    bytes(header.into_iter().chain(classes))
}

/// The same ranges, some of them in several pieces.
fn pieces(random: &mut Random, runs: Vec<GlyphRange>) -> Vec<GlyphRange> {
    let mut pieces = Vec::new();
    for mut run in runs {
        while run.first < run.last && random.one_in(4) {
            let last = random.within(run.first.into()..=run.last as usize - 1) as u16;
            pieces.push(GlyphRange { last, ..run });
            run.first = last + 1;
        }
        pieces.push(run);
    }
    pieces
}

fn in_ranges(ranges: &[GlyphRange]) -> Vec<u8> {
    let numbers = ranges.iter().flat_map(|range| range.words());
    bytes([2, ranges.len() as u16].into_iter().chain(numbers))
}
