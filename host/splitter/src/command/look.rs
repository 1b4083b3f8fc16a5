//! What a table is, for show: its header, its parts, and how much there is of it.
//!
//! The library decides about tables; this only describes tables that it does not refuse. Whatever
//! else it is given it describes somehow.

mod marks;
mod parts;

use parts::{class_def_glyphs, coverage_glyphs, word};
use splitter::{store_file::Table, Kind, Reach, StoreRef};
use std::ops::Range;

/// Where the coverage is linked; of a mark table, the mark coverage.
const COVERAGE: u32 = 2;
/// Where the base coverage of a mark table is linked.
const BASE_COVERAGE: u32 = 4;
/// Where the class definitions of format 2 are linked; of a mark table, the mark and the base array.
const PARTS: [u32; 2] = [8, 10];

/// What a table is.
#[derive(Clone, Debug, PartialEq, Eq)]
pub struct Look {
    /// Its number and its kind.
    pub table: Table,
    /// Its format.
    pub format: usize,
    /// The value formats of the first glyph and the second; 0 for a mark table.
    pub value_formats: [usize; 2],
    /// How many pair sets, rows or mark classes it has.
    pub items: usize,
    /// How many records a row has, or how many bases a mark table has; 0 in format 1 of pairs.
    pub columns: usize,
    /// How many glyphs it covers.
    pub glyphs: usize,
    /// The bytes of the table itself.
    pub own_bytes: usize,
    /// The bytes of the table and of all that it leads to.
    pub all_bytes: usize,
    /// The bytes of its coverage.
    pub coverage: Option<usize>,
    /// The bytes of its class definitions, or of its mark and base array.
    pub parts: [Option<usize>; 2],
}

impl Look {
    /// What a table is, if it is in use and has a format.
    pub fn at(store: StoreRef, table: Table) -> Option<Self> {
        let bytes = store.object(table.number)?;
        let format = word(bytes, 0)?;
        let known = is_split(table.kind, format);
        let count = |place| word(bytes, place).filter(|_| known).unwrap_or(0);
        let part = |position| store.object(store.child(table.number, position).filter(|_| known)?);
        let coverage = part(COVERAGE);
        let parts = PARTS.map(|position| match (table.kind, format) {
            (Kind::Pairs, 1) => None,
            _ => part(position),
        });
        let (value_formats, items, columns) = match (table.kind, format) {
            (Kind::Pairs, 1) => ([count(4), count(6)], count(8), 0),
            (Kind::Pairs, _) => ([count(4), count(6)], count(12), count(14)),
            (Kind::Marks, _) => (
                [0; 2],
                count(6),
                parts[1].and_then(|it| word(it, 0)).unwrap_or(0),
            ),
        };
        Some(Self {
            table,
            format,
            value_formats,
            items,
            columns,
            glyphs: coverage.map_or(0, |bytes| coverage_glyphs(bytes).len()),
            own_bytes: bytes.len(),
            all_bytes: Reach::new(store).add(table.number),
            coverage: coverage.map(<[u8]>::len),
            parts: parts.map(|part| part.map(<[u8]>::len)),
        })
    }

    /// Whether it has a format that is split.
    pub fn is_split(&self) -> bool {
        is_split(self.table.kind, self.format)
    }

    /// What its items are called.
    pub fn item_name(&self) -> &'static str {
        match (self.table.kind, self.format) {
            (Kind::Pairs, 1) => "pair set",
            (Kind::Pairs, _) => "row",
            (Kind::Marks, _) => "mark class",
        }
    }

    /// The bytes of the two values of a pair.
    fn record_bytes(&self) -> usize {
        let fields = self
            .value_formats
            .map(|format| (format & 0xFF).count_ones());
        2 * (fields[0] + fields[1]) as usize
    }

    /// Where an item of a pair table starts.
    fn item_start(&self, item: usize) -> usize {
        match self.format {
            1 => 10 + 2 * item,
            _ => 16 + self.record_bytes() * self.columns * item,
        }
    }

    /// The items of each piece, if the table is cut at these places.
    pub fn pieces(&self, cuts: &[u16]) -> Vec<Range<usize>> {
        let cuts = || cuts.iter().map(|&cut| usize::from(cut));
        let starts = [0].into_iter().chain(cuts());
        let ends = cuts().chain([self.items]);
        starts.zip(ends).map(|(start, end)| start..end).collect()
    }

    /// The bytes of each piece in the table as it is. What several lead to is counted for the first,
    /// and so are the header and its parts.
    pub fn piece_bytes(&self, store: StoreRef, pieces: &[Range<usize>]) -> Vec<usize> {
        match self.table.kind {
            Kind::Pairs => self.pair_piece_bytes(store, pieces),
            Kind::Marks => marks::piece_bytes(self, store, pieces),
        }
    }

    fn pair_piece_bytes(&self, store: StoreRef, pieces: &[Range<usize>]) -> Vec<usize> {
        let mut reach = Reach::new(store);
        let mut links = store.offsets_of(self.table.number).peekable();
        let mut start = 0;
        let mut bytes = Vec::new();
        for piece in pieces {
            let end = self.item_start(piece.end);
            let mut here = end - start;
            while let Some(link) = links.next_if(|link| (link.position as usize) < end) {
                here += reach.add(link.child);
            }
            bytes.push(here);
            start = end;
        }
        bytes
    }

    /// The second glyphs, or bases, that a table says something of, and one more that it says nothing of.
    pub fn second_glyphs(&self, store: StoreRef) -> Vec<u16> {
        let mut named = vec![false; 65_536];
        for glyph in self.named_second_glyphs(store) {
            named[usize::from(glyph)] = true;
        }
        if let Some(other) = named.iter().position(|named| !named) {
            named[other] = true;
        }
        let named = (0..=u16::MAX).zip(named).filter(|(_, named)| *named);
        named.map(|(glyph, _)| glyph).collect()
    }

    fn named_second_glyphs(&self, store: StoreRef) -> Vec<u16> {
        match (self.table.kind, self.format) {
            (Kind::Pairs, 1) => {
                let sets = store.offsets_of(self.table.number);
                let sets = sets.filter(|link| link.position as usize >= self.item_start(0));
                let sets = sets.filter_map(|link| store.object(link.child));
                let step = 2 + self.record_bytes();
                sets.flat_map(|set| parts::pair_set_glyphs(set, step))
                    .collect()
            }
            (Kind::Pairs, _) => self.glyphs_of(store, PARTS[1], class_def_glyphs),
            (Kind::Marks, _) => self.glyphs_of(store, BASE_COVERAGE, coverage_glyphs),
        }
    }

    /// The covered glyphs.
    pub fn first_glyphs(&self, store: StoreRef) -> Vec<u16> {
        self.glyphs_of(store, COVERAGE, coverage_glyphs)
    }

    /// The glyphs that the part at a position names.
    fn glyphs_of(&self, store: StoreRef, position: u32, glyphs: fn(&[u8]) -> Vec<u16>) -> Vec<u16> {
        let part = store.child(self.table.number, position);
        let bytes = part.and_then(|part| store.object(part));
        bytes.map_or(Vec::new(), glyphs)
    }
}

/// Whether tables of a kind and a format are split.
fn is_split(kind: Kind, format: usize) -> bool {
    match kind {
        Kind::Pairs => matches!(format, 1 | 2),
        Kind::Marks => format == 1,
    }
}
