//! Bars of bytes.

use super::{screen::Style, text::grouped};
use splitter::Fit;

const LIMIT: usize = Fit::LIMIT;

const LABEL: usize = 12;
const CELLS: usize = 54;

/// Bars on one scale.
pub struct Bars {
    style: Style,
    /// What a full bar stands for.
    most: usize,
}

impl Bars {
    /// Bars of which the longest stands for so many bytes. The limit always fits.
    pub fn new(style: Style, most: usize) -> Self {
        Self {
            style,
            most: most.max(LIMIT),
        }
    }

    fn cells(&self, bytes: usize) -> usize {
        (bytes * CELLS + self.most / 2) / self.most
    }

    /// A bar of pieces, each of so many bytes. The first is drawn as the piece of that number.
    pub fn bar(&self, label: &str, first: usize, pieces: &[usize]) -> String {
        let mut line = format!("  {label:<LABEL$}");
        let mut bytes = 0;
        let mut drawn = 0;
        for (piece, more) in pieces.iter().enumerate() {
            bytes += more;
            let cells = self.cells(bytes).min(CELLS) - drawn;
            line += &self.fill(first + piece, cells);
            drawn += cells;
        }
        line += &" ".repeat(CELLS - drawn);
        line + &format!("{:>10}", grouped(bytes))
    }

    /// Pieces next to each other look different.
    fn fill(&self, piece: usize, cells: usize) -> String {
        const COLOURS: [&str; 4] = ["36", "33", "35", "32"];
        let fills = match self.style.unicode {
            true => ["█", "▓", "▒", "░"],
            false => ["#", "=", "+", "-"],
        };
        let look = piece % fills.len();
        self.style.paint(COLOURS[look], &fills[look].repeat(cells))
    }

    /// The line below the bars, which shows the limit.
    pub fn limit(&self) -> String {
        let place = self.cells(LIMIT).saturating_sub(1);
        let mark = if self.style.unicode { "▲" } else { "^" };
        let words = format!("{} bytes, the limit", grouped(LIMIT));
        let start = LABEL + 2;
        match place + 2 + words.len() <= CELLS + 10 {
            true => format!("{}{mark} {words}", " ".repeat(start + place)),
            false => format!("{words:>width$} {mark}", width = start + place - 1),
        }
    }
}

#[cfg(test)]
mod tests {
    use super::*;
    use crate::command::text::COLUMNS;

    #[test]
    fn bars_are_on_scale() {
        let bars = Bars::new(Style::default(), 4 * LIMIT);
        let line = bars.bar("old", 0, &[2 * LIMIT, LIMIT, LIMIT]);
        let count = |fill| line.matches(fill).count();
        assert_eq!([count("#"), count("="), count("+")], [27, 14, 13]);
        assert!(line.ends_with("262,140"));
        assert_eq!(line.len(), COLUMNS - 2);
    }

    /// Pieces of nothing, pieces of less than a cell, and a bar past the most.
    #[test]
    fn bars_keep_to_the_columns() {
        for most in [0, 1, LIMIT, 100 * LIMIT, 1 << 24] {
            let bars = Bars::new(Style::default(), most);
            for pieces in [&[][..], &[0], &[1; 90], &[most, 1, 0, 7]] {
                assert_eq!(bars.bar("new 65535", 3, pieces).len(), COLUMNS - 2);
            }
            assert!(bars.limit().len() <= COLUMNS);
        }
    }
}
