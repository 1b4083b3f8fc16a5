//! Stored readings of pairs and attachments.

use crate::{
    check::{Outcome, Split},
    model::{
        answers,
        marks::{attachments, MarkBasePos},
        opened::Opened,
        pairs,
        table::PairPos,
    },
    Attachment, Edition, MarkSubject, Model, Pair, Subject,
};
use oracle::Store;
use splitter::Kind;

/// What a table says of two glyphs.
#[derive(Clone, Debug, PartialEq, Eq)]
pub struct Reading {
    /// The two glyphs.
    pub glyphs: [u16; 2],
    /// The answer.
    pub answer: u32,
    /// 1 where there is something, else 0.
    pub found: u32,
    /// Sixteen values, each raised by 65,536, or the two anchors.
    pub numbers: Vec<u32>,
}

impl Reading {
    fn of(kind: Kind, store: &Store, table: u32, glyphs: [u16; 2]) -> Self {
        let (answer, found, numbers) = match kind {
            Kind::Pairs => {
                let mut pair = Pair::default();
                let answer = Model.read_pair(store, table, glyphs, &mut pair);
                let raised = pair.values.map(|value| (value + 65_536) as u32);
                (answer, pair.found, raised.to_vec())
            }
            Kind::Marks => {
                let mut attachment = Attachment::default();
                let answer = Model.read_mark(store, table, glyphs, &mut attachment);
                (answer, attachment.found, attachment.anchors.to_vec())
            }
        };
        Self {
            glyphs,
            answer,
            found,
            numbers,
        }
    }
}

/// Some readings of a table, most of them found, and one that is not.
pub fn stored(kind: Kind, split: &Split) -> Vec<Reading> {
    let (store, table) = (&split.before.store, split.before.table);
    let edition = Edition::of(split.before.edition).unwrap_or(Edition::First);
    let mut glyphs = match kind {
        Kind::Pairs => match answers::open(store, table) {
            Ok(Some(pairpos)) => found_pairs(&pairpos, edition),
            _ => vec![[0, 0]],
        },
        Kind::Marks => match answers::open_marks(store, table) {
            Ok(Some(marks)) => found_attachments(&marks, edition),
            _ => vec![[0, 0]],
        },
    };
    glyphs.push([u16::MAX, 0]);
    glyphs.dedup();
    let readings = glyphs.into_iter();
    let readings = readings.map(|glyphs| Reading::of(kind, store, table, glyphs));
    readings.collect()
}

/// The kept and then the new tables give what the old table gave.
pub fn stay(kind: Kind, split: &Split, readings: &[Reading]) -> Outcome {
    for reading in readings {
        let glyphs = reading.glyphs;
        let tables = split.tables().into_iter();
        let mut after = tables.map(|table| Reading::of(kind, &split.after.store, table, glyphs));
        let after = after.find(|after| after.found == 1);
        if after.map_or(reading.found == 1, |after| after != *reading) {
            return Err(format!(
                "glyphs {glyphs:?}: another reading after the split"
            ));
        }
    }
    Ok(())
}

/// Of the first and the last item, and of those at a cut, a pair with values if there is one.
fn found_pairs(pairpos: &PairPos, edition: Edition) -> Vec<[u16; 2]> {
    let mut firsts: Vec<u16> = Vec::new();
    for item in some_items(pairpos, edition) {
        let glyph = pairpos.glyph_items().find(|&(_, other)| other == item);
        firsts.extend(glyph.map(|(glyph, _)| glyph));
    }
    firsts.sort_unstable();
    firsts.dedup();
    let class_defs = pairpos.parts.class_defs.iter();
    let named = class_defs.flat_map(|class_defs| class_defs.second.named());
    let mut seconds: Vec<u16> = named.map(|(glyph, _)| glyph).take(40).collect();
    seconds.extend(0..12);
    let best = |&first: &u16| {
        let pairs = seconds.iter().map(|&second| [first, second]);
        pairs.max_by_key(|&glyphs| pairs::read(pairpos, glyphs).values.map(|value| value != 0))
    };
    firsts.iter().filter_map(best).collect()
}

/// Of the first and the last class, and of those at a cut, a mark on a base that it is attached to if
/// there is one.
fn found_attachments(marks: &MarkBasePos, edition: Edition) -> Vec<[u16; 2]> {
    let mut chosen: Vec<usize> = Vec::new();
    for class in some_items(marks, edition) {
        let mut classes = marks.mark_classes.iter();
        chosen.extend(classes.position(|&other| usize::from(other) == class));
    }
    chosen.sort_unstable();
    chosen.dedup();
    let best = |&mark: &usize| {
        let mark = marks.mark_glyphs[mark];
        let bases = marks.base_glyphs.iter().map(|&base| [mark, base]);
        bases.max_by_key(|&[mark, base]| attachments::read(marks, mark, base).found)
    };
    chosen.iter().filter_map(best).collect()
}

/// The first item, the last, and those at the first cuts.
fn some_items(table: &impl Opened, edition: Edition) -> Vec<usize> {
    let cuts = table.cut_places(edition);
    let at_cuts = cuts.iter().take(2);
    let at_cuts = at_cuts.flat_map(|&cut| [cut, cut.wrapping_sub(1)]);
    let ends = [0, table.item_count().wrapping_sub(1)];
    at_cuts.chain(ends).collect()
}
