//! What a split of a PairPos table writes.

use super::{put, Kept, Written};
use crate::model::{
    class_def, coverage,
    header::{Format, CLASS_DEF1_POS, CLASS_DEF2_POS, COVERAGE_POS},
    numbers,
    objects::Link,
    table::PairPos,
};
use oracle::link;
use std::ops::Range;

/// Some items of the old table, and the covered glyphs of theirs with reduced classes.
struct Piece {
    items: Range<usize>,
    glyph_classes: Vec<(u16, u16)>,
}

/// What a split at these places writes, of which there is at least one.
pub fn write(pairpos: &PairPos, cuts: &[usize]) -> Written {
    let format = pairpos.header.format;
    let pieces = pieces(pairpos, cuts);
    let (kept, new) = pieces.split_first().expect("the kept piece");

    let mut new_objects = Vec::new();
    let mut new_tables = Vec::new();
    for piece in new {
        new_tables.push((pairpos.objects.count() + new_objects.len()) as u32);
        new_objects.push(new_table(pairpos, &piece.items));
        new_objects.extend(piece.parts(format));
    }
    let kept_parts = (pairpos.objects.count() + new_objects.len()) as u32;
    new_objects.extend(kept.parts(format));

    Written {
        links: links(pairpos, new, &new_tables, kept_parts),
        new_tables,
        new_objects,
        kept: kept_table(pairpos, cuts[0]),
    }
}

fn kept_table(pairpos: &PairPos, count: usize) -> Kept {
    let head = pairpos.objects.head(pairpos.table);
    Kept {
        table: pairpos.table,
        tail: (head + pairpos.header.item_pos(count)) as u32,
        count_at: head + pairpos.header.format.count_pos(),
        count: count as u16,
    }
}

impl Piece {
    /// Coverage, and in format 2 class definition 1.
    fn parts(&self, format: Format) -> Vec<Vec<u8>> {
        let glyphs: Vec<u16> = self.glyph_classes.iter().map(|entry| entry.0).collect();
        let mut parts = vec![coverage::write(&glyphs)];
        if format == Format::Two {
            parts.push(class_def::write(&self.glyph_classes));
        }
        parts
    }
}

/// The kept piece, then the new ones. Glyphs whose item is in none go to none.
fn pieces(pairpos: &PairPos, cuts: &[usize]) -> Vec<Piece> {
    let starts = [0].iter().chain(cuts);
    let ends = cuts.iter().chain([&pairpos.header.items]);
    let mut pieces: Vec<Piece> = starts
        .zip(ends)
        .map(|(&start, &end)| Piece {
            items: start..end,
            glyph_classes: Vec::new(),
        })
        .collect();
    for (glyph, item) in pairpos.glyph_items() {
        if item < pairpos.header.items {
            let piece = &mut pieces[cuts.partition_point(|&cut| cut <= item)];
            let class = (item - piece.items.start) as u16;
            piece.glyph_classes.push((glyph, class));
        }
    }
    pieces
}

/// Format, value formats and class2Count are copied, and so are rows; offsets are zero.
fn new_table(pairpos: &PairPos, items: &Range<usize>) -> Vec<u8> {
    let format = pairpos.header.format;
    let old = pairpos.bytes();
    let mut new = old[..format.min_size()].to_vec();
    for &offset in format.offsets() {
        put(&mut new, offset, &[0; 2]);
    }
    let count = items.len() as u16;
    put(&mut new, format.count_pos(), &count.to_be_bytes());
    match format {
        Format::One => new.extend(numbers::bytes(items.clone().map(|_| 0))),
        Format::Two => new.extend(&old[pairpos.item_positions(items.clone())]),
    }
    new
}

/// The links that stay, then those of each new table. `kept_parts` is the kept table's coverage. Of the
/// table's order-only links all stay, and new objects have none.
fn links(pairpos: &PairPos, new: &[Piece], new_tables: &[u32], kept_parts: u32) -> Vec<Link> {
    let cut_off = pairpos.header.item_pos(new[0].items.start);
    let is_offset = |link: &Link| link[0] == pairpos.table && link::is_offset(link);
    let stays = |link: &&Link| !is_offset(link) || (link[1] as usize) < cut_off;
    let old_links = pairpos.objects.links().iter();
    let mut links: Vec<Link> = old_links.filter(stays).copied().collect();
    for link in links.iter_mut().filter(|link| is_offset(link)) {
        link[3] = kept_child(link, kept_parts);
    }
    for (piece, &table) in new.iter().zip(new_tables) {
        links.extend(header_links(pairpos, table));
        links.extend(moved_links(pairpos, piece, table));
    }
    links
}

/// The kept table's coverage and class definition 1 are new objects.
fn kept_child(link: &Link, kept_parts: u32) -> u32 {
    match link[1] as usize {
        COVERAGE_POS => kept_parts,
        CLASS_DEF1_POS => kept_parts + 1,
        _ => link[3],
    }
}

/// Links to a new table's own parts, which follow it, and to class definition 2, which is shared.
fn header_links(pairpos: &PairPos, table: u32) -> Vec<Link> {
    let offset = |position, child| link::offset(table, position as u32, child);
    let mut links = vec![offset(COVERAGE_POS, table + 1)];
    if let Some(class_defs) = &pairpos.parts.class_defs {
        links.push(offset(CLASS_DEF1_POS, table + 2));
        links.push(offset(CLASS_DEF2_POS, class_defs.second_object));
    }
    links
}

/// The links of a piece's items, which keep their children.
fn moved_links<'a>(
    pairpos: &PairPos<'a>,
    piece: &Piece,
    table: u32,
) -> impl Iterator<Item = Link> + 'a {
    let positions = pairpos.item_positions(piece.items.clone());
    let shift = positions.start - pairpos.header.format.min_size();
    let offsets = pairpos.objects.offsets_within(pairpos.table, positions);
    offsets
        .iter()
        .map(move |&[_, position, _, child, _]| link::offset(table, position - shift as u32, child))
}
