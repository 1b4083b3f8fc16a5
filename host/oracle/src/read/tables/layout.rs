//! Coverage and ClassDef.

use crate::{
    read::{FontData, FontRead, ReadError},
    types::Scalar,
};

const GLYPH_LEN: usize = 2;
const RANGE_LEN: usize = 6;

/// A coverage table.
#[derive(Clone, Copy, Debug)]
pub enum CoverageTable<'a> {
    /// A list of glyphs.
    Format1(&'a [u8]),
    /// Ranges of glyphs.
    Format2(&'a [u8]),
}

impl<'a> FontRead<'a> for CoverageTable<'a> {
    fn read(data: FontData<'a>) -> Result<Self, ReadError> {
        match number(data.0, 0)? {
            1 => records(data.0, 2, GLYPH_LEN).map(Self::Format1),
            2 => records(data.0, 2, RANGE_LEN).map(Self::Format2),
            _ => Err(ReadError),
        }
    }
}

impl<'a> CoverageTable<'a> {
    /// The covered glyphs in order. A glyph of the list is a range that ends where it starts.
    pub fn iter(&self) -> impl Iterator<Item = u16> + 'a {
        let (records, len, end) = match *self {
            Self::Format1(glyphs) => (glyphs, GLYPH_LEN, 0),
            Self::Format2(ranges) => (ranges, RANGE_LEN, 2),
        };
        records
            .chunks_exact(len)
            .flat_map(move |record| field(record, 0)..=field(record, end))
    }
}

/// A class definition.
#[derive(Clone, Copy, Debug)]
pub enum ClassDef<'a> {
    /// The first glyph, and the classes from it on.
    Format1(u16, &'a [u8]),
    /// Ranges of glyphs, each with its class.
    Format2(&'a [u8]),
}

impl<'a> FontRead<'a> for ClassDef<'a> {
    fn read(data: FontData<'a>) -> Result<Self, ReadError> {
        match number(data.0, 0)? {
            1 => Ok(Self::Format1(
                number(data.0, 2)?,
                records(data.0, 4, GLYPH_LEN)?,
            )),
            2 => records(data.0, 2, RANGE_LEN).map(Self::Format2),
            _ => Err(ReadError),
        }
    }
}

impl ClassDef<'_> {
    /// The class of a glyph; 0 where it is not named.
    pub fn get(&self, glyph: u16) -> u16 {
        match *self {
            Self::Format1(first, classes) => glyph
                .checked_sub(first)
                .and_then(|i| number(classes, GLYPH_LEN * i as usize).ok())
                .unwrap_or(0),
            Self::Format2(ranges) => {
                let ranges = ranges.as_chunks::<RANGE_LEN>().0;
                let place = ranges.partition_point(|range| field(range, 2) < glyph);
                match ranges.get(place) {
                    Some(range) if field(range, 0) <= glyph => field(range, 4),
                    _ => 0,
                }
            }
        }
    }
}

/// The records of one length that follow their count.
fn records(bytes: &[u8], count_pos: usize, len: usize) -> Result<&[u8], ReadError> {
    let count = number(bytes, count_pos)? as usize;
    bytes[count_pos + 2..].get(..count * len).ok_or(ReadError)
}

fn number(bytes: &[u8], position: usize) -> Result<u16, ReadError> {
    bytes.get(position..).and_then(u16::read).ok_or(ReadError)
}

/// A number of a record, which is known to be whole.
fn field(record: &[u8], position: usize) -> u16 {
    u16::from_be_bytes([record[position], record[position + 1]])
}
