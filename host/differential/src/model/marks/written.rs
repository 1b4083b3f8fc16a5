//! What a split of a MarkBasePos table writes.

use super::{
    base_slot, mark_slot, MarkBasePos, BASE_ARRAY_POS, BASE_COVERAGE_POS, CLASS_COUNT_POS,
    MARK_ARRAY_POS, MARK_COVERAGE_POS,
};
use crate::model::{
    coverage,
    numbers::bytes,
    objects::Link,
    written::{Kept, Written},
};
use oracle::link;
use std::ops::Range;

/// Some mark classes of the old table, and the marks of theirs in the old order.
struct Piece {
    classes: Range<usize>,
    marks: Vec<usize>,
}

/// The objects that hold a table's mark coverage, mark array and base array, in this order.
struct Parts(u32);

/// What a split at these places writes, of which there is at least one.
///
/// New objects are table, coverage, mark array and base array of each new table, then the kept
/// table's coverage and arrays.
pub fn write(marks: &MarkBasePos, cuts: &[usize]) -> Written {
    let pieces = pieces(marks, cuts);
    let (kept, new) = pieces.split_first().expect("the kept piece");

    let mut new_tables = Vec::new();
    let mut new_objects = Vec::new();
    let mut new_links = Vec::new();
    for piece in new {
        let table = (marks.objects.count() + new_objects.len()) as u32;
        let parts = Parts(table + 1);
        new_tables.push(table);
        new_objects.push(bytes([1, 0, 0, piece.classes.len() as u16, 0, 0]));
        new_objects.extend(piece.parts(marks));
        new_links.extend(table_links(marks, table, &parts));
        new_links.extend(piece.links(marks, &parts));
    }
    let kept_parts = Parts((marks.objects.count() + new_objects.len()) as u32);
    new_objects.extend(kept.parts(marks));
    new_links.extend(kept.links(marks, &kept_parts));

    let mut links = old_links(marks, &kept_parts);
    links.extend(new_links);
    let head = marks.objects.head(marks.table);
    Written {
        new_tables,
        new_objects,
        links,
        kept: Kept {
            table: marks.table,
            tail: (head + MarkBasePos::LEN) as u32,
            count_at: head + CLASS_COUNT_POS,
            count: cuts[0] as u16,
        },
    }
}

impl Parts {
    fn coverage(&self) -> u32 {
        self.0
    }

    fn mark_array(&self) -> u32 {
        self.0 + 1
    }

    fn base_array(&self) -> u32 {
        self.0 + 2
    }
}

impl Piece {
    /// Mark coverage, mark array and base array.
    fn parts(&self, marks: &MarkBasePos) -> [Vec<u8>; 3] {
        let glyphs: Vec<u16> = self
            .marks
            .iter()
            .map(|&mark| marks.mark_glyphs[mark])
            .collect();
        let first = self.classes.start as u16;
        let records = self.marks.iter();
        let records = records.flat_map(|&mark| [marks.mark_classes[mark] - first, 0]);
        let slots = vec![0; marks.base_count * self.classes.len()];
        [
            coverage::write(&glyphs),
            bytes([self.marks.len() as u16].into_iter().chain(records)),
            bytes([marks.base_count as u16].into_iter().chain(slots)),
        ]
    }

    /// The links of both arrays, which keep their children.
    fn links(&self, marks: &MarkBasePos, parts: &Parts) -> Vec<Link> {
        let of_marks = marks.mark_links().filter_map(|(mark, link)| {
            let place = self.marks.binary_search(&mark).ok()?;
            Some((parts.mark_array(), mark_slot(place), link))
        });
        let of_bases = marks.base_links().filter_map(|([base, class], link)| {
            let column = class.checked_sub(self.classes.start)?;
            let slot = base * self.classes.len() + column;
            let is_ours = column < self.classes.len();
            is_ours.then_some((parts.base_array(), base_slot(slot), link))
        });
        let offsets = of_marks.chain(of_bases);
        let moved = offsets.map(|(array, position, [_, _, _, child, _])| {
            link::offset(array, position as u32, child)
        });
        moved.collect()
    }
}

/// The kept piece, then the new ones. Covered glyphs past the marks go to none.
fn pieces(marks: &MarkBasePos, cuts: &[usize]) -> Vec<Piece> {
    let starts = [0].iter().chain(cuts);
    let ends = cuts.iter().chain([&marks.class_count]);
    let mut pieces: Vec<Piece> = starts
        .zip(ends)
        .map(|(&start, &end)| Piece {
            classes: start..end,
            marks: Vec::new(),
        })
        .collect();
    for (mark, &class) in marks.mark_classes.iter().enumerate() {
        let piece = cuts.partition_point(|&cut| cut <= usize::from(class));
        pieces[piece].marks.push(mark);
    }
    pieces
}

/// Links to a new table's own parts, and to the base coverage, which is shared.
fn table_links(marks: &MarkBasePos, table: u32, parts: &Parts) -> [Link; 4] {
    [
        (MARK_COVERAGE_POS, parts.coverage()),
        (BASE_COVERAGE_POS, marks.base_coverage),
        (MARK_ARRAY_POS, parts.mark_array()),
        (BASE_ARRAY_POS, parts.base_array()),
    ]
    .map(|(position, child)| link::offset(table, position as u32, child))
}

/// The old links, of which three offsets of the kept table lead to its new parts.
fn old_links(marks: &MarkBasePos, kept_parts: &Parts) -> Vec<Link> {
    let mut links = marks.objects.links().to_vec();
    let is_offset = |link: &&mut Link| link[0] == marks.table && link::is_offset(link);
    for link in links.iter_mut().filter(is_offset) {
        link[3] = match link[1] as usize {
            MARK_COVERAGE_POS => kept_parts.coverage(),
            MARK_ARRAY_POS => kept_parts.mark_array(),
            BASE_ARRAY_POS => kept_parts.base_array(),
            _ => link[3],
        };
    }
    links
}
