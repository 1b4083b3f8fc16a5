//! Fonts that are made by hand.

/// Words as a font has them.
pub fn words(words: &[u16]) -> Vec<u8> {
    words.iter().flat_map(|word| word.to_be_bytes()).collect()
}

/// A font of these tables.
pub fn font(tables: &[(&[u8; 4], Vec<u8>)]) -> Vec<u8> {
    let mut start = 12 + 16 * tables.len();
    let mut font = words(&[1, 0, tables.len() as u16, 0, 0, 0]);
    for (tag, table) in tables {
        font.extend(*tag);
        font.extend(
            [0, start, table.len()]
                .map(|number| number as u32)
                .map(u32::to_be_bytes)
                .concat(),
        );
        start += table.len();
    }
    font.extend(tables.iter().flat_map(|(_, table)| table));
    font
}

/// A collection of fonts, each of which has one place for its tables in the file.
pub fn collection(fonts: &[Vec<u8>]) -> Vec<u8> {
    let header = 12 + 4 * fonts.len();
    let mut collection = b"ttcf\0\x01\0\0".to_vec();
    collection.extend((fonts.len() as u32).to_be_bytes());
    let mut start = header;
    for font in fonts {
        collection.extend((start as u32).to_be_bytes());
        start += font.len();
    }
    for font in fonts {
        let start = collection.len();
        collection.extend(font);
        let count = usize::from(u16::from_be_bytes([font[4], font[5]]));
        for record in 0..count {
            let at = start + 12 + 16 * record + 8;
            let mut offset = [0; 4];
            offset.copy_from_slice(&collection[at..at + 4]);
            let offset = u32::from_be_bytes(offset) + start as u32;
            collection[at..at + 4].copy_from_slice(&offset.to_be_bytes());
        }
    }
    collection
}

/// A GPOS table of these lookups.
pub fn gpos(lookups: &[Vec<u8>]) -> Vec<u8> {
    [words(&[1, 0, 0, 0, 10]), list(&[], lookups)].concat()
}

/// A lookup of a type, with these subtables.
pub fn lookup(kind: u16, subtables: &[Vec<u8>]) -> Vec<u8> {
    list(&[kind, 0], subtables)
}

/// Some words, a count, offsets, and what they lead to.
fn list(before: &[u16], parts: &[Vec<u8>]) -> Vec<u8> {
    let mut list = words(before);
    list.extend((parts.len() as u16).to_be_bytes());
    let mut start = list.len() + 2 * parts.len();
    for part in parts {
        list.extend((start as u16).to_be_bytes());
        start += part.len();
    }
    list.extend(parts.iter().flatten());
    list
}

/// An extension to a subtable of a type, which stands right behind it.
pub fn extension(kind: u16, subtable: &[u8]) -> Vec<u8> {
    [&words(&[1, kind, 0, 8]), subtable].concat()
}

/// Format 1. Glyphs 5, 7, 8 and 9: the first and the last have one set, and 8 has none.
pub fn pair_sets() -> Vec<u8> {
    let table = [1, 18, 0x0044, 0x0010, 4, 30, 48, 0, 30];
    let coverage = [1, 4, 5, 7, 8, 9];
    let [device, variation] = [58 - 30, 66 - 30];
    let set = [2, 70, 0xFFE2, device, variation, 71, 0xFFE1, 0, device];
    let other_set = [1, 70, 5, 0, 0];
    let devices = [11, 14, 2, 0x1111, 3, 4, 0x8000];
    words(&[&table, &coverage[..], &set, &other_set, &devices].concat())
}

/// Format 2. Glyphs 5, 6 and 7, of which 6 has class 1, before glyphs 70 and 71, of class 1. The
/// coverage may be class definition 2 as well.
pub fn pair_rows(shared: bool) -> Vec<u8> {
    let (class_def2, device) = if shared { (32, 50) } else { (50, 60) };
    let table = [2, 32, 0x0004, 0x0020, 42, class_def2, 2, 2];
    let records = [10, 0, 11, device, 20, 0, 21, device];
    let parts = [2, 1, 5, 7, 0, 1, 6, 1, 1];
    let class_def2: &[u16] = if shared { &[] } else { &[2, 1, 70, 71, 1] };
    words(
        &[
            &table,
            &records[..],
            &parts,
            class_def2,
            &[12, 12, 1, 0x4000],
        ]
        .concat(),
    )
}

/// Mark glyphs 5 and 7 of classes 1 and 0, and bases 60 and 61. Both marks have one anchor, of format
/// 1, which is that of base 60 in class 0 too; in class 1 it has one of format 3, with one device for
/// both directions, and base 61 one of format 2 in class 1 alone.
pub fn mark_table() -> Vec<u8> {
    let table = [1, 12, 20, 2, 30, 40];
    let mark_coverage = [1, 2, 5, 7];
    let base_coverage = [2, 1, 60, 61, 0];
    let mark_array = [2, 1, 50 - 30, 0, 50 - 30];
    let base_array = [2, 50 - 40, 56 - 40, 0, 66 - 40];
    let anchors = [1, 100, 200, 3, 300, 400, 74 - 56, 74 - 56, 2, 500, 600, 7];
    let device = [11, 14, 2, 0x1111];
    let parts: [&[u16]; 7] = [
        &table,
        &mark_coverage,
        &base_coverage,
        &mark_array,
        &base_array,
        &anchors,
        &device,
    ];
    words(&parts.concat())
}
