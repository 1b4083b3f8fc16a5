//! The tables that cuts make of a table that can be read: what is written for each.

use crate::{
    explain::Part,
    glyphs,
    table::{row_size, word, TableRef},
    Kind,
};
use std::ops::Range;

/// Some items in a row, and the glyphs that they have, each with its item.
pub(crate) struct Piece<'a> {
    table: TableRef<'a>,
    pub items: Range<usize>,
    glyphs: Vec<(usize, usize)>,
}

/// The pieces that cuts make, which ascend and are items of the table: the kept one, and the new ones.
pub(crate) fn pieces<'a>(table: TableRef<'a>, cuts: &[usize]) -> Vec<Piece<'a>> {
    let items = table.items();
    let starts = [0].into_iter().chain(cuts.iter().copied());
    let ends = cuts.iter().copied().chain([items]);
    let mut pieces: Vec<Piece> = starts
        .zip(ends)
        .map(|(start, end)| Piece {
            table,
            items: start..end,
            glyphs: Vec::new(),
        })
        .collect();
    for (glyph, item) in glyph_items(&table) {
        let piece = cuts.partition_point(|&cut| cut <= item);
        if item < items {
            pieces[piece].glyphs.push((glyph, item));
        }
    }
    pieces
}

/// Each covered glyph with its item: that of its place, or of its class.
fn glyph_items(table: &TableRef) -> Vec<(usize, usize)> {
    match (table.kind, table.format()) {
        (Kind::Pairs, 1) => glyphs::covered(table.part_bytes(Part::Coverage))
            .into_iter()
            .zip(0..)
            .collect(),
        (Kind::Pairs, _) => {
            let glyphs = glyphs::covered(table.part_bytes(Part::Coverage));
            let classes = glyphs::classes(table.part_bytes(Part::ClassDef1), &glyphs);
            glyphs.into_iter().zip(classes).collect()
        }
        (Kind::Marks, _) => {
            let marks = table.part_bytes(Part::MarkArray);
            let class = |mark: usize| word(marks, 2 + 4 * mark);
            let glyphs = glyphs::covered(table.part_bytes(Part::MarkCoverage));
            let marks = 0..word(marks, 0);
            glyphs.into_iter().zip(marks.map(class)).collect()
        }
    }
}

impl<'a> Piece<'a> {
    /// A piece without items.
    pub fn of_nothing(table: TableRef<'a>) -> Self {
        Self {
            table,
            items: 0..0,
            glyphs: Vec::new(),
        }
    }
}

impl Piece<'_> {
    /// The bytes of its table.
    pub fn table(&self) -> usize {
        match (self.table.kind, self.table.format()) {
            (Kind::Pairs, 1) => 10 + 2 * self.items.len(),
            (Kind::Pairs, _) => 16 + row_size(self.table.bytes()) * self.items.len(),
            (Kind::Marks, _) => 12,
        }
    }

    /// The bytes of each part that it shares with no other.
    pub fn own_parts(&self) -> Vec<usize> {
        match (self.table.kind, self.table.format()) {
            (Kind::Pairs, 1) => vec![self.coverage()],
            (Kind::Pairs, _) => vec![self.coverage(), self.class_def()],
            (Kind::Marks, _) => {
                let bases = word(self.table.part_bytes(Part::BaseArray), 0);
                let mark_array = 2 + 4 * self.glyphs.len();
                let base_array = 2 + 2 * bases * self.items.len();
                vec![self.coverage(), mark_array, base_array]
            }
        }
    }

    /// A list of glyphs, or ranges where these are shorter.
    fn coverage(&self) -> usize {
        let runs = runs(self.glyphs.iter().map(|&(glyph, _)| (glyph, 0)));
        (4 + 2 * self.glyphs.len()).min(4 + 6 * runs)
    }

    /// A list of classes from the first glyph that has one other than the first on, or ranges where
    /// these are shorter or a list would be too long.
    fn class_def(&self) -> usize {
        let has_class = |(_, item): &(usize, usize)| *item != self.items.start;
        let named = || self.glyphs.iter().copied().filter(has_class);
        let ranges = 4 + 6 * runs(named());
        match (named().next(), named().next_back()) {
            (Some((first, _)), Some((last, _))) if last - first < 65_535 => {
                ranges.min(6 + 2 * (last - first + 1))
            }
            _ => ranges,
        }
    }
}

/// How many runs there are of glyphs that follow one another and have one number.
fn runs(glyphs: impl Iterator<Item = (usize, usize)>) -> usize {
    let mut before = None;
    let starts = glyphs.filter(|&(glyph, item)| {
        let goes_on = before == Some((glyph, item));
        before = Some((glyph + 1, item));
        !goes_on
    });
    starts.count()
}
