//! What coverage and class definition 1 would take for some classes.

use super::ranges::runs;

/// The classes added so far.
#[derive(Clone, Debug)]
pub struct Estimate {
    /// Whether a glyph is in one of them: glyph g at place g + 1, so that it has two neighbours.
    included: Vec<bool>,
    first: usize,
    last: usize,
    glyphs: usize,
    /// Runs of the glyphs, whatever their classes.
    runs: usize,
    /// Runs of each class but 0.
    class_runs: usize,
}

impl Estimate {
    /// No class yet.
    pub fn empty() -> Self {
        Self {
            included: vec![false; 65_538],
            first: usize::MAX,
            last: 0,
            glyphs: 0,
            runs: 0,
            class_runs: 0,
        }
    }

    /// Adds a class by its glyphs, which ascend.
    pub fn add(&mut self, class: usize, glyphs: &[u16]) {
        if class != 0 {
            self.class_runs += runs(glyphs.iter().map(|&glyph| (glyph, 0))).len();
        }
        for &glyph in glyphs {
            self.add_glyph(glyph.into());
        }
    }

    /// A glyph begins a run, unless it joins the one before it, the one behind it, or both.
    fn add_glyph(&mut self, glyph: usize) {
        let neighbours = [self.included[glyph], self.included[glyph + 2]];
        let joined = neighbours.iter().filter(|&&included| included).count();
        self.included[glyph + 1] = true;
        self.runs = self.runs + 1 - joined;
        self.glyphs += 1;
        self.first = self.first.min(glyph);
        self.last = self.last.max(glyph);
    }

    /// The length of the coverage.
    pub fn coverage(&self) -> usize {
        (4 + 2 * self.glyphs).min(4 + 6 * self.runs)
    }

    /// The length of the class definition: first and last include class 0.
    pub fn class_def(&self) -> usize {
        let span = match self.glyphs {
            0 => 0,
            _ => self.last - self.first + 1,
        };
        (6 + 2 * span).min(4 + 6 * self.class_runs)
    }
}
