//! What is wrong with a table's coverages, class definitions and arrays.

use super::{Asked, Fault, Part, Place, Wanted};
use crate::{glyphs, table::word, Kind};

pub(super) fn fault(asked: &Asked) -> Option<Fault> {
    let parts: &[(Part, Look)] = match (asked.kind, asked.format()) {
        (Kind::Pairs, 1) => &[(Part::Coverage, coverage)],
        (Kind::Pairs, _) => &[
            (Part::Coverage, coverage),
            (Part::ClassDef1, class_def),
            (Part::ClassDef2, class_def),
        ],
        (Kind::Marks, _) => &[
            (Part::MarkCoverage, coverage),
            (Part::BaseCoverage, coverage),
            (Part::MarkArray, mark_array),
            (Part::BaseArray, base_array),
        ],
    };
    parts.iter().find_map(|&(part, look)| {
        let Some((object, bytes)) = asked.part(part) else {
            return Some(Fault::NoLink {
                parent: asked.table,
                position: part.position(asked.kind)?,
                part,
            });
        };
        let bad = look(bytes, asked.items())?;
        Some(bad.of(object, part))
    })
}

/// Fewer glyphs are covered than there are pair sets or marks.
pub(super) fn few_glyphs(asked: &Asked) -> Option<Fault> {
    let (part, least, because) = match (asked.kind, asked.format()) {
        (Kind::Pairs, 1) => (Part::Coverage, asked.items(), "one for each pair set"),
        (Kind::Pairs, _) => return None,
        (Kind::Marks, _) => {
            let (_, marks) = asked.part(Part::MarkArray)?;
            let because = "one for each mark of the mark array";
            (Part::MarkCoverage, word(marks, 0), because)
        }
    };
    let (object, bytes) = asked.part(part)?;
    let found = glyphs::covered(bytes).len();
    (found < least).then(|| {
        let place = Place::Glyphs { object, part };
        Fault::number(place, found, Wanted::AtLeast(least as u64), because)
    })
}

/// Looks for what is wrong with the bytes of a part, of a table of so many items.
type Look = fn(&[u8], usize) -> Option<Bad>;

/// What is wrong with some bytes.
enum Bad {
    Length(usize, Wanted, &'static str),
    Number(Number, usize, Wanted, &'static str),
}

/// A number, and where it stands.
struct Number {
    at: usize,
    name: &'static str,
    entry: Option<usize>,
}

impl Bad {
    /// The same, of an object.
    fn of(self, object: u32, part: Part) -> Fault {
        match self {
            Self::Length(found, wanted, because) => {
                Fault::number(Place::Length { object, part }, found, wanted, because)
            }
            Self::Number(Number { at, name, entry }, found, wanted, because) => {
                let place = Place::Bytes {
                    object,
                    part,
                    at,
                    name,
                    entry,
                };
                Fault::number(place, found, wanted, because)
            }
        }
    }

    fn number(bytes: &[u8], number: Number, wanted: Wanted, because: &'static str) -> Self {
        let found = word(bytes, number.at);
        Self::Number(number, found, wanted, because)
    }
}

const BY_COUNT: &str = "by its count";

/// Fewer bytes than its header has.
fn short(bytes: &[u8], header: usize) -> Option<Bad> {
    let wanted = Wanted::AtLeast(header as u64);
    (bytes.len() < header).then_some(Bad::Length(bytes.len(), wanted, "to have a header"))
}

/// Not as many bytes as there must be.
fn not_exactly(bytes: &[u8], wanted: usize, because: &'static str) -> Option<Bad> {
    let exactly = Wanted::Exactly(wanted as u64);
    (bytes.len() != wanted).then_some(Bad::Length(bytes.len(), exactly, because))
}

fn other_format(bytes: &[u8]) -> Bad {
    let format = Number {
        at: 0,
        name: "format",
        entry: None,
    };
    Bad::number(bytes, format, Wanted::Either(1, 2), "")
}

fn coverage(bytes: &[u8], _items: usize) -> Option<Bad> {
    short(bytes, 4).or_else(|| {
        let count = word(bytes, 2);
        match word(bytes, 0) {
            1 => not_exactly(bytes, 4 + 2 * count, BY_COUNT).or_else(|| list(bytes, count)),
            2 => not_exactly(bytes, 4 + 6 * count, BY_COUNT).or_else(|| ranges(bytes, count, true)),
            _ => Some(other_format(bytes)),
        }
    })
}

fn class_def(bytes: &[u8], _items: usize) -> Option<Bad> {
    short(bytes, 4).or_else(|| match word(bytes, 0) {
        1 => short(bytes, 6)
            .or_else(|| not_exactly(bytes, 6 + 2 * word(bytes, 4), BY_COUNT))
            .or_else(|| past_last_glyph(bytes)),
        2 => {
            let count = word(bytes, 2);
            not_exactly(bytes, 4 + 6 * count, BY_COUNT).or_else(|| ranges(bytes, count, false))
        }
        _ => Some(other_format(bytes)),
    })
}

/// Glyphs that do not ascend.
fn list(bytes: &[u8], count: usize) -> Option<Bad> {
    let glyph = |entry: usize| word(bytes, 4 + 2 * entry);
    let entry = (1..count).find(|&entry| glyph(entry) <= glyph(entry - 1))?;
    let number = Number {
        at: 4 + 2 * entry,
        name: "glyph",
        entry: Some(entry),
    };
    let wanted = Wanted::Above(glyph(entry - 1) as u64);
    Some(Bad::number(bytes, number, wanted, "the glyph before it"))
}

/// A list of classes goes on past glyph 65,535.
fn past_last_glyph(bytes: &[u8]) -> Option<Bad> {
    let most = 65_536 - word(bytes, 4);
    let number = Number {
        at: 2,
        name: "first glyph",
        entry: None,
    };
    let because = "so that its last glyph is at most 65535";
    let wanted = Wanted::AtMost(most as u64);
    (word(bytes, 2) > most).then(|| Bad::number(bytes, number, wanted, because))
}

/// Ranges that end before they start, or do not ascend; those of a coverage say how many glyphs come
/// before them.
fn ranges(bytes: &[u8], count: usize, has_indices: bool) -> Option<Bad> {
    let mut before = None;
    let mut glyphs = 0;
    for entry in 0..count {
        let at = 4 + 6 * entry;
        let bad = |offset: usize, name, wanted, because| {
            let number = Number {
                at: at + offset,
                name,
                entry: Some(entry),
            };
            Some(Bad::number(bytes, number, wanted, because))
        };
        let [first, last, index] = [at, at + 2, at + 4].map(|place| word(bytes, place));
        if let Some(before) = before.filter(|&before| first <= before) {
            let because = "the last glyph of the range before";
            let wanted = Wanted::Above(before as u64);
            return bad(0, "the first glyph of range", wanted, because);
        }
        if last < first {
            let wanted = Wanted::AtLeast(first as u64);
            return bad(2, "the last glyph of range", wanted, "its first glyph");
        }
        if has_indices && index != glyphs {
            let wanted = Wanted::Exactly(glyphs as u64);
            let because = "how many glyphs the ranges before have";
            return bad(4, "the start index of range", wanted, because);
        }
        before = Some(last);
        glyphs += last - first + 1;
    }
    None
}

fn mark_array(bytes: &[u8], classes: usize) -> Option<Bad> {
    let count = word(bytes, 0);
    let class = |mark: usize| word(bytes, 2 + 4 * mark);
    short(bytes, 2)
        .or_else(|| not_exactly(bytes, 2 + 4 * count, BY_COUNT))
        .or_else(|| {
            let mark = (0..count).find(|&mark| class(mark) >= classes)?;
            let number = Number {
                at: 2 + 4 * mark,
                name: "the class of mark",
                entry: Some(mark),
            };
            let because = "how many classes the table has";
            let wanted = Wanted::Below(classes as u64);
            Some(Bad::number(bytes, number, wanted, because))
        })
}

fn base_array(bytes: &[u8], classes: usize) -> Option<Bad> {
    let because = "by its count of bases and the table's of classes";
    short(bytes, 2).or_else(|| not_exactly(bytes, 2 + 2 * word(bytes, 0) * classes, because))
}
