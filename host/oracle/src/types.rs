//! Big-endian numbers and glyphs.

/// A type whose bytes are always as many.
pub trait FixedSize {
    /// How many bytes it takes.
    const RAW_BYTE_LEN: usize;
}

/// A number that stands in a font table, big-endian.
pub trait Scalar: FixedSize + Sized {
    /// The number at the start of `bytes`, if they hold one.
    fn read(bytes: &[u8]) -> Option<Self>;

    /// Writes the number at the start of `bytes`, which must have room for it.
    fn write(self, bytes: &mut [u8]);
}

impl FixedSize for u16 {
    const RAW_BYTE_LEN: usize = 2;
}

impl Scalar for u16 {
    fn read(bytes: &[u8]) -> Option<Self> {
        bytes.first_chunk().copied().map(u16::from_be_bytes)
    }

    fn write(self, bytes: &mut [u8]) {
        bytes[..Self::RAW_BYTE_LEN].copy_from_slice(&self.to_be_bytes());
    }
}

/// A two-byte offset. Only its length is asked for: where it leads is a link.
pub struct Offset16;

impl FixedSize for Offset16 {
    const RAW_BYTE_LEN: usize = 2;
}

/// A glyph number.
#[derive(Clone, Copy, Debug, PartialEq, Eq)]
pub struct GlyphId(u32);

impl GlyphId {
    /// The glyph's number.
    pub fn to_u32(self) -> u32 {
        self.0
    }
}

impl From<u16> for GlyphId {
    fn from(glyph: u16) -> Self {
        Self(glyph.into())
    }
}
