//! Writers of Coverage and ClassDef, and of plain numbers.

use crate::{
    read::tables::layout::{ClassDef, CoverageTable},
    serialize::{SerializeErrorFlags, Serializer},
    types::GlyphId,
    Serialize,
};

/// Glyphs in a row that have one class.
struct Run {
    first: u16,
    last: u16,
    class: u16,
}

/// The coverage table of ascending glyphs: in format 2 only where that is shorter.
pub fn coverage(glyphs: &[u16]) -> Vec<u8> {
    let glyphs = glyphs.iter().copied();
    let runs = runs(glyphs.clone().map(|glyph| (glyph, 0)));
    if 6 * runs.len() >= 2 * glyphs.len() {
        return words([1, count(glyphs.len())].into_iter().chain(glyphs));
    }
    let mut index = 0;
    let ranges = runs.iter().flat_map(|run| {
        let start_index = count(index);
        index += (run.last - run.first) as usize + 1;
        [run.first, run.last, start_index]
    });
    words([2, count(runs.len())].into_iter().chain(ranges))
}

/// The class definition of ascending glyphs: it names only classes other than 0.
///
/// In format 2 only where that is shorter, or where format 1 cannot count the glyphs from first to
/// last.
pub fn class_def(glyph_classes: &[(u16, u16)]) -> Vec<u8> {
    let named = glyph_classes
        .iter()
        .copied()
        .filter(|&(_, class)| class != 0);
    let runs = runs(named);
    match span(&runs) {
        Some((first, len)) if len <= 0xFFFF && 6 + 2 * len <= 4 + 6 * runs.len() => {
            let mut classes = vec![0; len];
            for run in &runs {
                let range = (run.first - first) as usize..=(run.last - first) as usize;
                classes[range].fill(run.class);
            }
            words([1, first, count(len)].into_iter().chain(classes))
        }
        _ => {
            let ranges = runs.iter().flat_map(|run| [run.first, run.last, run.class]);
            words([2, count(runs.len())].into_iter().chain(ranges))
        }
    }
}

/// The big-endian bytes of 16-bit numbers.
pub fn words(numbers: impl IntoIterator<Item = u16>) -> Vec<u8> {
    numbers.into_iter().flat_map(u16::to_be_bytes).collect()
}

impl<'a> Serialize<'a> for CoverageTable<'_> {
    type Args = &'a [GlyphId];

    fn serialize(s: &mut Serializer, glyphs: &'a [GlyphId]) -> Result<(), SerializeErrorFlags> {
        let glyphs: Vec<u16> = glyphs.iter().map(|glyph| glyph.to_u32() as u16).collect();
        s.embed_bytes(&coverage(&glyphs))
    }
}

impl<'a> Serialize<'a> for ClassDef<'_> {
    type Args = &'a [(u16, u16)];

    fn serialize(
        s: &mut Serializer,
        glyph_classes: &'a [(u16, u16)],
    ) -> Result<(), SerializeErrorFlags> {
        s.embed_bytes(&class_def(glyph_classes))
    }
}

fn runs(glyph_classes: impl Iterator<Item = (u16, u16)>) -> Vec<Run> {
    let mut runs: Vec<Run> = Vec::new();
    for (glyph, class) in glyph_classes {
        match runs.last_mut() {
            Some(run) if run.class == class && run.last.checked_add(1) == Some(glyph) => {
                run.last = glyph;
            }
            _ => runs.push(Run {
                first: glyph,
                last: glyph,
                class,
            }),
        }
    }
    runs
}

/// The first glyph, and how many there are from it to the last.
fn span(runs: &[Run]) -> Option<(u16, usize)> {
    let (first, last) = (runs.first()?.first, runs.last()?.last);
    Some((first, (last - first) as usize + 1))
}

fn count(len: usize) -> u16 {
    u16::try_from(len).expect("a count of 16 bits")
}
