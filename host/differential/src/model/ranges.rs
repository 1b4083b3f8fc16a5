//! Ranges of glyphs: format 2 of Coverage and ClassDef.

/// The glyphs from first to last, and the number beside them: start index, or class.
#[derive(Clone, Copy, Debug, PartialEq, Eq)]
pub struct GlyphRange {
    /// The first glyph.
    pub first: u16,
    /// The last glyph.
    pub last: u16,
    /// The start index or the class.
    pub beside: u16,
}

/// The ranges in exactly these bytes: first ≤ last, each first above the last before.
pub fn read(bytes: &[u8], count: u16) -> Option<Vec<GlyphRange>> {
    if bytes.len() != 6 * count as usize {
        return None;
    }
    let ranges: Vec<_> = bytes.as_chunks().0.iter().map(range).collect();
    let fit = ranges.iter().all(|range| range.first <= range.last);
    (fit && ranges.is_sorted_by(|a, b| a.last < b.first)).then_some(ranges)
}

/// The longest runs of ascending glyphs that follow one another and have the same number.
pub fn runs(entries: impl IntoIterator<Item = (u16, u16)>) -> Vec<GlyphRange> {
    let mut runs: Vec<GlyphRange> = Vec::new();
    for (glyph, beside) in entries {
        match runs.last_mut() {
            Some(run) if run.beside == beside && glyph - run.last == 1 => run.last = glyph,
            _ => runs.push(GlyphRange {
                first: glyph,
                last: glyph,
                beside,
            }),
        }
    }
    runs
}

impl GlyphRange {
    /// How many glyphs there are.
    pub fn glyph_count(&self) -> usize {
        (self.last - self.first) as usize + 1
    }

    /// The three numbers of a range.
    pub fn words(self) -> [u16; 3] {
        [self.first, self.last, self.beside]
    }
}

fn range(bytes: &[u8; 6]) -> GlyphRange {
    let [a, b, c, d, e, f] = *bytes;
    GlyphRange {
        first: u16::from_be_bytes([a, b]),
        last: u16::from_be_bytes([c, d]),
        beside: u16::from_be_bytes([e, f]),
    }
}
