//! Contents that are short to store: long runs of one number where no rule looks.

use crate::{
    edit,
    model::{
        answers,
        header::Format,
        marks::{MarkBasePos, OFFSETS},
        reach::Seen,
        table::PairPos,
    },
    Call,
};
use oracle::{link, Store};

/// Makes runs of what is lent to no use: scratch, list, and all past the counts.
pub fn lent(mut call: Call<u32>) -> Call<u32> {
    let store = &mut call.store;
    let [data, objects, links] = store.counts.map(|count| count as usize);
    store.data[data..].fill(0xA5);
    store.objects[2 * objects..].fill(6);
    store.links[link::NUMBERS * links..].fill(7);
    let scratch = &mut call.scratch;
    scratch.walk.fill(11);
    scratch.glyph_set.fill(12);
    scratch.glyphs.fill(13);
    scratch.classes.fill(14);
    scratch.cuts.fill(15);
    call.list.fill(16);
    call
}

/// Makes runs of the bytes of objects, as far as no cut depends on them.
///
/// Pair sets stay, and each row of format 2 is two runs.
pub fn store(old: &Store, table: u32) -> Store {
    let mut store = old.clone();
    let Ok(Some(pairpos)) = answers::open(old, table) else {
        return store;
    };
    let sets = pairpos.sets();
    for object in (0..old.counts[1]).filter(|object| !sets.contains(object)) {
        let bytes = plain_bytes(&pairpos, object);
        let head = edit::head(old, object);
        store.data[head..head + bytes.len()].copy_from_slice(&bytes);
    }
    store
}

/// The same, of objects that the table leads to alone: lookups and other subtables stay.
pub fn below(old: &Store, table: u32) -> Store {
    let mut plain = store(old, table);
    let Ok(Some(pairpos)) = answers::open(old, table) else {
        return plain;
    };
    let mut seen = Seen::nothing(pairpos.objects);
    seen.count(pairpos.offsets());
    for object in (0..old.counts[1]).filter(|&object| object != table && !seen.has(object)) {
        let (head, bytes) = (edit::head(old, object), edit::bytes(old, object));
        plain.data[head..head + bytes.len()].copy_from_slice(bytes);
    }
    plain
}

/// The same of a MarkBasePos table: no rule looks into anchors, or at offsets.
pub fn marks_store(old: &Store, table: u32) -> Store {
    let mut store = old.clone();
    let Ok(Some(marks)) = answers::open_marks(old, table) else {
        return store;
    };
    for object in 0..old.counts[1] {
        let bytes = plain_anchor(&marks, object);
        let head = edit::head(old, object);
        store.data[head..head + bytes.len()].copy_from_slice(&bytes);
    }
    store
}

fn plain_anchor(marks: &MarkBasePos, object: u32) -> Vec<u8> {
    let mut bytes = marks.objects.bytes(object).to_vec();
    let parts = OFFSETS.map(|position| marks.objects.child_at(marks.table, position));
    if object == marks.base_array && object != marks.mark_array {
        bytes[2..].fill(0);
    } else if object == marks.mark_array && object != marks.base_array {
        bytes[2..]
            .chunks_mut(4)
            .for_each(|record| record[2..].fill(0));
    } else if object != marks.table && !parts.contains(&Some(object)) {
        bytes.fill(object as u8);
    }
    bytes
}

fn plain_bytes(pairpos: &PairPos, object: u32) -> Vec<u8> {
    let header = &pairpos.header;
    let offsets = header.format.offsets().len();
    let mut bytes = pairpos.objects.bytes(object).to_vec();
    let is_part = pairpos.offsets()[..offsets]
        .iter()
        .any(|link| link[3] == object);
    if is_part {
        return bytes;
    }
    if object == pairpos.table {
        let items = &mut bytes[header.format.min_size()..];
        match header.format {
            Format::One => items.fill(0),
            Format::Two => plain_rows(items, header.item_size()),
        }
        return bytes;
    }
    bytes.fill(object as u8);
    bytes
}

/// Both halves of a row are a run.
fn plain_rows(rows: &mut [u8], size: usize) {
    for (row, bytes) in rows.chunks_mut(size.max(1)).enumerate() {
        let (left, right) = bytes.split_at_mut(size / 2);
        left.fill((row % 200) as u8 + 1);
        right.fill((row % 200) as u8 + 51);
    }
}
