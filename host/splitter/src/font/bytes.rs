//! Bytes of a font, which may end anywhere.

use super::error::FontError;

/// A part of a font file.
#[derive(Clone, Copy, Debug)]
pub struct Bytes<'a> {
    bytes: &'a [u8],
    /// Where in the file it starts.
    start: usize,
}

impl<'a> Bytes<'a> {
    /// A whole file.
    pub const fn new(bytes: &'a [u8]) -> Self {
        Self { bytes, start: 0 }
    }

    /// Some bytes of it, as a part of their own.
    pub fn part(self, at: usize, len: usize, what: &'static str) -> Result<Self, FontError> {
        Ok(Self {
            bytes: self.get(at, len, what)?,
            start: self.start + at,
        })
    }

    /// Some bytes of it.
    pub fn get(self, at: usize, len: usize, what: &'static str) -> Result<&'a [u8], FontError> {
        let end = at.checked_add(len);
        let bytes = end.and_then(|end| self.bytes.get(at..end));
        bytes.ok_or(FontError::Ends {
            what,
            at: self.start.saturating_add(at),
        })
    }

    /// The number of 16 bits at a place.
    pub fn u16(self, at: usize, what: &'static str) -> Result<usize, FontError> {
        let bytes = self.get(at, 2, what)?;
        Ok(number(bytes))
    }

    /// The number of 32 bits at a place.
    pub fn u32(self, at: usize, what: &'static str) -> Result<usize, FontError> {
        let bytes = self.get(at, 4, what)?;
        Ok(number(bytes))
    }
}

fn number(bytes: &[u8]) -> usize {
    let longer = |number, &byte| number << 8 | usize::from(byte);
    bytes.iter().fold(0, longer)
}
