//! Coverage and ClassDef: what is written is read back, in the format that is due.

use oracle::{
    read::{
        tables::layout::{ClassDef, CoverageTable},
        FontData, FontRead, ReadError,
    },
    write,
};

fn covered(bytes: &[u8]) -> Result<Vec<u16>, ReadError> {
    CoverageTable::read(FontData::new(bytes)).map(|table| table.iter().collect())
}

/// The format and length of a class definition, which must give all classes back.
fn written(glyph_classes: &[(u16, u16)]) -> (u8, usize) {
    let bytes = write::class_def(glyph_classes);
    let table = ClassDef::read(FontData::new(&bytes)).unwrap();
    let mut named = glyph_classes.iter().peekable();
    for glyph in 0..=u16::MAX {
        let class = named.next_if(|(named, _)| *named == glyph);
        assert_eq!(table.get(glyph), class.map_or(0, |&(_, class)| class));
    }
    (bytes[1], bytes.len())
}

#[test]
fn coverage_reads_back() {
    let all: Vec<u16> = (0..=u16::MAX).collect();
    let every_second: Vec<u16> = (0..=u16::MAX).step_by(2).collect();
    for glyphs in [&[][..], &[9], &[0, u16::MAX], &every_second, &all] {
        assert_eq!(covered(&write::coverage(glyphs)).unwrap(), glyphs);
    }
}

#[test]
fn a_tie_of_class_definitions_is_format_1() {
    assert_eq!(written(&[(5, 1), (6, 1)]), (1, 10));
    assert_eq!(written(&[(5, 1), (6, 1), (7, 1)]), (2, 10));
}

#[test]
fn class_0_is_not_named() {
    assert_eq!(written(&[(5, 0), (6, 0)]), (2, 4));
    assert_eq!(written(&[(1, 0), (5, 1), (6, 0), (7, 2), (9, 0)]), (1, 12));
}

#[test]
fn format_1_cannot_span_all_glyphs() {
    let classes =
        |last: u16| -> Vec<_> { (0..=last).map(|glyph| (glyph, 1 + glyph % 2)).collect() };
    assert_eq!(written(&classes(65_534)), (1, 6 + 2 * 65_535));
    let mut spanning = classes(u16::MAX);
    spanning[7].1 = 0;
    assert_eq!(written(&spanning), (2, 4 + 6 * 65_535));
}

#[test]
fn short_bytes_and_other_formats_are_unreadable() {
    let coverage = write::coverage(&[10, 20, 30]);
    for len in 0..coverage.len() {
        assert_eq!(covered(&coverage[..len]), Err(ReadError));
    }
    let class_def = write::class_def(&[(5, 1), (7, 2)]);
    for len in 0..class_def.len() {
        assert!(ClassDef::read(FontData::new(&class_def[..len])).is_err());
    }
    assert_eq!(covered(&[0, 3, 0, 0]), Err(ReadError));
    assert!(ClassDef::read(FontData::new(&[0, 0, 0, 0, 0, 0])).is_err());
}
