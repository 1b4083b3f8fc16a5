//! Coverage, read and written.

use super::{
    numbers::{bytes, head, words},
    ranges::{self, runs},
};

/// The covered glyphs in order, or nothing where the bytes are unreadable.
pub fn read(bytes: &[u8]) -> Option<Vec<u16>> {
    let ([format, count], rest) = head(bytes)?;
    match format {
        1 => list(rest, count),
        2 => covered(rest, count),
        _ => None,
    }
}

/// Strictly ascending glyphs, and nothing behind them.
fn list(rest: &[u8], count: u16) -> Option<Vec<u16>> {
    if rest.len() != 2 * count as usize {
        return None;
    }
    let glyphs: Vec<u16> = words(rest).collect();
    glyphs.is_sorted_by(|a, b| a < b).then_some(glyphs)
}

/// The glyphs of ranges, each with the number of glyphs before it.
fn covered(rest: &[u8], count: u16) -> Option<Vec<u16>> {
    let mut glyphs = Vec::new();
    for range in ranges::read(rest, count)? {
        if range.beside as usize != glyphs.len() {
            return None;
        }
        glyphs.extend(range.first..=range.last);
    }
    Some(glyphs)
}

/// The coverage of ascending glyphs: format 2 only where that is shorter.
pub fn write(glyphs: &[u16]) -> Vec<u8> {
    let mut runs = runs(glyphs.iter().map(|&glyph| (glyph, 0)));
    if 6 * runs.len() >= 2 * glyphs.len() {
        return bytes([1, glyphs.len() as u16].iter().chain(glyphs).copied());
    }
    let mut index = 0;
    for run in &mut runs {
        run.beside = index as u16;
        index += run.glyph_count();
    }
    let ranges = runs.iter().flat_map(|run| run.words());
    bytes([2, runs.len() as u16].into_iter().chain(ranges))
}
