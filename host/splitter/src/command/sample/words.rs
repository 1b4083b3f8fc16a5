//! Tables as words.

/// Words as a font has them.
pub fn bytes(words: &[u16]) -> Vec<u8> {
    words.iter().flat_map(|word| word.to_be_bytes()).collect()
}

/// Words, and then bytes.
pub fn words_then_bytes(words: &[u16], rest: &[u8]) -> Vec<u8> {
    [&bytes(words), rest].concat()
}

/// A coverage of ascending glyphs, as a list.
pub fn coverage(glyphs: &[u16]) -> Vec<u8> {
    bytes(&[&[1, glyphs.len() as u16], glyphs].concat())
}

/// A class definition of glyphs that follow one another.
pub fn class_def(first: u16, classes: &[u16]) -> Vec<u8> {
    bytes(&[&[1, first, classes.len() as u16], classes].concat())
}

/// A device that moves glyphs by a pixel at some sizes from 11 to 18 pixels.
pub fn device(deltas: u16) -> Vec<u8> {
    bytes(&[11, 18, 1, deltas])
}
