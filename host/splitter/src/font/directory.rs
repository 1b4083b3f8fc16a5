//! The directory of a font's tables.

use super::{bytes::Bytes, error::FontError};

const WHAT: &str = "the directory of tables";

/// The GPOS table of a font, or of the first font of a collection, if it has one.
pub fn find_gpos(file: &[u8]) -> Result<Option<Bytes<'_>>, FontError> {
    let file = Bytes::new(file);
    let font = match tag(file, 0)? {
        b"ttcf" => first_font(file)?,
        _ => 0,
    };
    match tag(file, font)? {
        b"\0\x01\0\0" | b"OTTO" | b"true" | b"typ1" => find_table(file, font, b"GPOS"),
        b"wOFF" | b"wOF2" => Err(FontError::Packed),
        _ => Err(FontError::NotAFont),
    }
}

fn tag(file: Bytes<'_>, at: usize) -> Result<&[u8; 4], FontError> {
    let tag = file.get(at, 4, WHAT)?;
    tag.first_chunk().ok_or(FontError::NotAFont)
}

fn first_font(file: Bytes) -> Result<usize, FontError> {
    match file.u32(8, "the header of the collection")? {
        0 => Err(FontError::NoFonts),
        _ => file.u32(12, "the header of the collection"),
    }
}

fn find_table<'a>(
    file: Bytes<'a>,
    font: usize,
    name: &[u8; 4],
) -> Result<Option<Bytes<'a>>, FontError> {
    let count = file.u16(font + 4, WHAT)?;
    for record in 0..count {
        let at = font + 12 + 16 * record;
        if tag(file, at)? == name {
            let (start, len) = (file.u32(at + 8, WHAT)?, file.u32(at + 12, WHAT)?);
            return file.part(start, len, "the GPOS table").map(Some);
        }
    }
    Ok(None)
}
