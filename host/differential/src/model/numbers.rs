//! Big-endian numbers.

/// The number at a position, if the bytes hold one there.
pub fn u16_at(bytes: &[u8], position: usize) -> Option<u16> {
    let number = bytes.get(position..)?.first_chunk()?;
    Some(u16::from_be_bytes(*number))
}

/// The first numbers, and the bytes behind them.
pub fn head<const N: usize>(bytes: &[u8]) -> Option<([u16; N], &[u8])> {
    let (numbers, rest) = bytes.split_at_checked(2 * N)?;
    Some((
        std::array::from_fn(|i| word([numbers[2 * i], numbers[2 * i + 1]])),
        rest,
    ))
}

/// All whole numbers in a row.
pub fn words(bytes: &[u8]) -> impl Iterator<Item = u16> + '_ {
    bytes.as_chunks().0.iter().copied().map(word)
}

/// The bytes of numbers in a row.
pub fn bytes(words: impl IntoIterator<Item = u16>) -> Vec<u8> {
    words.into_iter().flat_map(u16::to_be_bytes).collect()
}

fn word(bytes: [u8; 2]) -> u16 {
    u16::from_be_bytes(bytes)
}
