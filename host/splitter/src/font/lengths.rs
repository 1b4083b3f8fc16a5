//! How long the parts of a table are. A part of an unknown format is as long as its format.

use super::{bytes::Bytes, error::FontError};

/// The length of a part that starts at a place.
pub type Length = fn(Bytes, usize) -> Result<usize, FontError>;

/// The length of a coverage.
pub fn coverage(bytes: Bytes, at: usize) -> Result<usize, FontError> {
    let what = "a coverage";
    Ok(match bytes.u16(at, what)? {
        1 => 4 + 2 * bytes.u16(at + 2, what)?,
        2 => 4 + 6 * bytes.u16(at + 2, what)?,
        _ => 2,
    })
}

/// The length of a class definition.
pub fn class_def(bytes: Bytes, at: usize) -> Result<usize, FontError> {
    let what = "a class definition";
    Ok(match bytes.u16(at, what)? {
        1 => 6 + 2 * bytes.u16(at + 4, what)?,
        2 => 4 + 6 * bytes.u16(at + 2, what)?,
        _ => 2,
    })
}

/// The length of a device: a number of 2, 4 or 8 bits for each size, or two indices of variations.
pub fn device(bytes: Bytes, at: usize) -> Result<usize, FontError> {
    let what = "a device";
    let first = bytes.u16(at, what)?;
    let last = bytes.u16(at + 2, what)?;
    Ok(match bytes.u16(at + 4, what)? {
        format @ 1..=3 if first <= last => {
            let bits = (last - first + 1) << format;
            6 + 2 * bits.div_ceil(16)
        }
        _ => 6,
    })
}

/// The length of an anchor: two coordinates, and then nothing, a point or two devices.
pub fn anchor(bytes: Bytes, at: usize) -> Result<usize, FontError> {
    Ok(match bytes.u16(at, "an anchor")? {
        1 => 6,
        2 => 8,
        3 => 10,
        _ => 2,
    })
}
