//! The glyphs that coverages, class definitions and pair sets name.

/// The number at a place.
pub fn word(bytes: &[u8], place: usize) -> Option<usize> {
    let word = bytes.get(place..)?.first_chunk()?;
    Some(usize::from(u16::from_be_bytes(*word)))
}

fn words(bytes: &[u8]) -> Vec<u16> {
    let words = bytes.as_chunks().0.iter();
    words.map(|&word| u16::from_be_bytes(word)).collect()
}

/// The glyphs of a coverage.
pub fn coverage_glyphs(bytes: &[u8]) -> Vec<u16> {
    match &words(bytes)[..] {
        [1, _, glyphs @ ..] => glyphs.to_vec(),
        [2, _, ranges @ ..] => ranged(ranges),
        _ => Vec::new(),
    }
}

/// The glyphs that a class definition names.
pub fn class_def_glyphs(bytes: &[u8]) -> Vec<u16> {
    match &words(bytes)[..] {
        [1, start, _, classes @ ..] => (*start..=u16::MAX).take(classes.len()).collect(),
        [2, _, ranges @ ..] => ranged(ranges),
        _ => Vec::new(),
    }
}

/// The glyphs of ranges, as far as they ascend.
fn ranged(ranges: &[u16]) -> Vec<u16> {
    let mut glyphs = Vec::new();
    for &[first, last, _] in ranges.as_chunks().0 {
        if glyphs.last().is_some_and(|&before| before >= first) {
            break;
        }
        glyphs.extend(first..=last);
    }
    glyphs
}

/// The second glyphs of a pair set, whose records are so many bytes long.
pub fn pair_set_glyphs(set: &[u8], record: usize) -> impl Iterator<Item = u16> + '_ {
    let count = word(set, 0).unwrap_or(0);
    let records = set.get(2..).unwrap_or_default().chunks_exact(record);
    let glyphs = records.take(count).filter_map(|record| word(record, 0));
    glyphs.map(|glyph| glyph as u16)
}

#[cfg(test)]
mod tests {
    use super::*;

    fn bytes(words: &[u16]) -> Vec<u8> {
        words.iter().flat_map(|word| word.to_be_bytes()).collect()
    }

    #[test]
    fn glyphs_of_coverages() {
        assert_eq!(coverage_glyphs(&bytes(&[1, 3, 5, 7, 8])), [5, 7, 8]);
        assert_eq!(
            coverage_glyphs(&bytes(&[2, 2, 5, 6, 0, 9, 9, 2])),
            [5, 6, 9]
        );
        assert_eq!(coverage_glyphs(&bytes(&[2, 2, 5, 6, 0, 6, 9, 2])), [5, 6]);
        assert_eq!(coverage_glyphs(&bytes(&[2, 1, 0, 65_535, 0])).len(), 65_536);
        assert_eq!(coverage_glyphs(&[0]), []);
        assert_eq!(coverage_glyphs(&bytes(&[3, 1, 5])), []);
    }

    #[test]
    fn glyphs_of_class_definitions() {
        assert_eq!(class_def_glyphs(&bytes(&[1, 7, 2, 1, 0])), [7, 8]);
        assert_eq!(class_def_glyphs(&bytes(&[1, 65_535, 2, 1, 0])), [65_535]);
        assert_eq!(class_def_glyphs(&bytes(&[2, 1, 7, 9, 4])), [7, 8, 9]);
        assert_eq!(class_def_glyphs(&[]), []);
    }

    #[test]
    fn glyphs_of_pair_sets() {
        let glyphs = |words: &[u16]| pair_set_glyphs(&bytes(words), 4).collect::<Vec<_>>();
        assert_eq!(glyphs(&[2, 70, 1, 71, 2, 72, 3]), [70, 71]);
        assert_eq!(glyphs(&[9, 70, 1, 71]), [70]);
        assert_eq!(glyphs(&[]), []);
    }
}
