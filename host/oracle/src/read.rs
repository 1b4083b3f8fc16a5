//! Readers of font tables, and the integer set.

pub mod collections;
pub mod tables;

/// The bytes of a table.
#[derive(Clone, Copy, Debug)]
pub struct FontData<'a>(pub(crate) &'a [u8]);

impl<'a> FontData<'a> {
    /// Takes bytes as those of a table.
    pub fn new(bytes: &'a [u8]) -> Self {
        Self(bytes)
    }
}

/// A table that can be read from bytes.
pub trait FontRead<'a>: Sized {
    /// Reads a table.
    fn read(data: FontData<'a>) -> Result<Self, ReadError>;
}

/// Bytes of no known format, or too few for their count.
#[derive(Clone, Copy, Debug, PartialEq, Eq)]
pub struct ReadError;
