//! What is refused of MarkBasePos tables alone: lengths, parts, glyphs and links.

use super::{parts::COVERAGES, Named};
use crate::{
    edit,
    model::{
        marks::{
            BASE_ARRAY_POS, BASE_COVERAGE_POS, CLASS_COUNT_POS, MARK_ARRAY_POS, MARK_COVERAGE_POS,
            OFFSETS,
        },
        numbers::{self, u16_at},
    },
    Call, Random,
};
use oracle::link;

pub const LENGTHS: &[Named] = &[
    ("a table of no bytes", |call, _| resize_table(call, 0)),
    ("a table of one byte", |call, _| resize_table(call, 1)),
    ("a table of its format alone", |call, _| {
        resize_table(call, 2)
    }),
    ("a table one byte short", |call, _| resize_table(call, 11)),
    ("a table one byte long", |call, _| resize_table(call, 13)),
    ("a table one offset long", |call, _| resize_table(call, 14)),
];

pub const UNREADABLE: &[Named] = &[
    ("a part that is not linked", |call, random| {
        let offset = random.pick(&OFFSETS) as u32;
        edit::unlink(&mut call.store, call.table, offset);
        Some(())
    }),
    ("a part that is linked by order only", |call, random| {
        let offset = random.pick(&OFFSETS);
        let part = part(call, offset)?;
        edit::unlink(&mut call.store, call.table, offset as u32);
        edit::order(&mut call.store, call.table, part);
        Some(())
    }),
    ("a part of no bytes", |call, random| {
        let offset = random.pick(&OFFSETS);
        change(call, offset, |bytes| bytes.clear())
    }),
    ("a part of one byte", |call, random| {
        let offset = random.pick(&OFFSETS);
        change(call, offset, |bytes| bytes.truncate(1))
    }),
    ("a part one byte short", |call, random| {
        let offset = random.pick(&OFFSETS);
        change(call, offset, |bytes| bytes.truncate(bytes.len() - 1))
    }),
    ("a part one byte long", |call, random| {
        let offset = random.pick(&OFFSETS);
        change(call, offset, |bytes| bytes.push(0))
    }),
    ("an array one number long", |call, random| {
        let offset = random.pick(&ARRAYS);
        change(call, offset, |bytes| bytes.extend([0; 2]))
    }),
    ("a mark array one record long", |call, _| {
        change(call, MARK_ARRAY_POS, |bytes| bytes.extend([0; 4]))
    }),
    ("a mark array one record short", |call, _| {
        let count = array_count(call, MARK_ARRAY_POS)?;
        change(call, MARK_ARRAY_POS, |bytes| {
            bytes.truncate(bytes.len().max(6) - 4)
        })?;
        (count > 0).then_some(())
    }),
    ("an array's count one too high", |call, random| {
        let offset = random.pick(&ARRAYS);
        let count = array_count(call, offset)?.checked_add(1)?;
        set_array_count(call, offset, count)
    }),
    ("an array's count one too low", |call, random| {
        let offset = random.pick(&ARRAYS);
        let count = array_count(call, offset)?.checked_sub(1)?;
        set_array_count(call, offset, count)
    }),
    ("a mark of the class behind the last", |call, random| {
        let class = class_count(call)?;
        set_mark_class(call, random, class)
    }),
    ("a mark of the greatest of all classes", |call, random| {
        set_mark_class(call, random, u16::MAX)
    }),
    ("one class too few for a base array", |call, _| {
        let count = class_count(call)?.checked_sub(1)?;
        edit::set_word(&mut call.store, call.table, CLASS_COUNT_POS, count);
        (array_count(call, BASE_ARRAY_POS)? > 0).then_some(())
    }),
    ("a coverage of another format", |call, random| {
        let (offset, format) = (random.pick(&COVERAGE_OFFSETS), random.pick(&[0, 3]));
        change(call, offset, |bytes| bytes[1] = format)
    }),
    ("an unreadable coverage", |call, random| {
        let offset = random.pick(&COVERAGE_OFFSETS);
        let words = random.pick(COVERAGES);
        change(call, offset, |bytes| {
            *bytes = numbers::bytes(words.iter().copied())
        })
    }),
];

pub const FEW_GLYPHS: &[Named] = &[
    ("one covered mark glyph too few", |call, _| {
        let count = array_count(call, MARK_ARRAY_POS)?.checked_sub(1)?;
        cover(call, count)
    }),
    ("no covered mark glyph", |call, _| {
        cover(call, 0)?;
        (array_count(call, MARK_ARRAY_POS)? > 0).then_some(())
    }),
];

pub const LINKS: &[Named] = &[
    ("a link at the format", |call, _| stray(call, 0)),
    ("a link half over the coverage's", |call, _| stray(call, 3)),
    ("a link at the class count", |call, _| stray(call, 6)),
    ("a link half over the mark array's", |call, _| {
        stray(call, 9)
    }),
    ("a link at a mark's class", |call, random| {
        let mark = random.below(array_count(call, MARK_ARRAY_POS)?.max(1).into());
        stray_of_array(call, MARK_ARRAY_POS, 2 + 4 * mark)
    }),
    ("a link half over a mark's anchor", |call, random| {
        let mark = random.below(array_count(call, MARK_ARRAY_POS)?.max(1).into());
        stray_of_array(call, MARK_ARRAY_POS, 3 + 4 * mark)
    }),
    ("a link at the count of an array", |call, random| {
        let offset = random.pick(&ARRAYS);
        stray_of_array(call, offset, 0)
    }),
    ("a link half over a base's anchor", |call, random| {
        let base = random.below(array_count(call, BASE_ARRAY_POS)?.max(1).into());
        stray_of_array(call, BASE_ARRAY_POS, 1 + 2 * base)
    }),
    ("a part that leads to the table", |call, random| {
        let offset = random.pick(&OFFSETS);
        let part = fresh(call, offset)?;
        edit::link(&mut call.store, part, 0, call.table);
        Some(())
    }),
    ("an anchor that leads to the table", |call, random| {
        let [_, _, _, anchor, _] = anchor_link(call, random)?;
        let last = edit::bytes(&call.store, anchor).len().checked_sub(2)?;
        edit::link(&mut call.store, anchor, last as u32, call.table);
        Some(())
    }),
    ("an anchor that is the table", |call, random| {
        let [array, position, ..] = anchor_link(call, random)?;
        edit::link(&mut call.store, array, position, call.table);
        Some(())
    }),
    ("a long way back to the table", |call, random| {
        let mut object = call.table;
        for _ in 0..random.within(2..=40) {
            let next = edit::add(&mut call.store, &[0; 3]);
            edit::link(&mut call.store, next, 1, object);
            object = next;
        }
        let coverage = fresh(call, BASE_COVERAGE_POS)?;
        edit::link(&mut call.store, coverage, 1, object);
        lend_walk(call);
        Some(())
    }),
];

const ARRAYS: [usize; 2] = [MARK_ARRAY_POS, BASE_ARRAY_POS];
const COVERAGE_OFFSETS: [usize; 2] = [MARK_COVERAGE_POS, BASE_COVERAGE_POS];

fn resize_table(call: &mut Call<u32>, len: usize) -> Option<()> {
    let mut bytes = edit::bytes(&call.store, call.table).to_vec();
    bytes.resize(len, 0);
    edit::replace(&mut call.store, call.table, &bytes);
    Some(())
}

/// The object at an offset of the table.
fn part(call: &Call<u32>, offset: usize) -> Option<u32> {
    edit::child_at(&call.store, call.table, offset as u32)
}

/// A copy of a part without its links, which nothing else leads to, in the part's place.
fn fresh(call: &mut Call<u32>, offset: usize) -> Option<u32> {
    let bytes = edit::bytes(&call.store, part(call, offset)?).to_vec();
    let copy = edit::add(&mut call.store, &bytes);
    edit::link(&mut call.store, call.table, offset as u32, copy);
    lend_walk(call);
    Some(copy)
}

/// Lends scratch for objects that were added.
fn lend_walk(call: &mut Call<u32>) {
    call.scratch
        .walk
        .resize(2 * call.store.counts[1] as usize, 1);
}

/// Changes the bytes of a part.
fn change(call: &mut Call<u32>, offset: usize, change: impl Fn(&mut Vec<u8>)) -> Option<()> {
    let part = part(call, offset)?;
    let mut bytes = edit::bytes(&call.store, part).to_vec();
    change(&mut bytes);
    edit::replace(&mut call.store, part, &bytes);
    Some(())
}

/// Gives the table a mark coverage of its own, of so many glyphs.
fn cover(call: &mut Call<u32>, count: u16) -> Option<()> {
    let words = [1, count].into_iter().chain(0..count);
    let coverage = edit::add(&mut call.store, &numbers::bytes(words));
    edit::link(
        &mut call.store,
        call.table,
        MARK_COVERAGE_POS as u32,
        coverage,
    );
    Some(())
}

fn class_count(call: &Call<u32>) -> Option<u16> {
    u16_at(edit::bytes(&call.store, call.table), CLASS_COUNT_POS)
}

fn array_count(call: &Call<u32>, offset: usize) -> Option<u16> {
    u16_at(edit::bytes(&call.store, part(call, offset)?), 0)
}

/// Sets another count, where that makes another length: a base has no bytes without a class.
fn set_array_count(call: &mut Call<u32>, offset: usize, count: u16) -> Option<()> {
    let array = part(call, offset)?;
    edit::set_word(&mut call.store, array, 0, count);
    (offset == MARK_ARRAY_POS || class_count(call)? > 0).then_some(())
}

fn set_mark_class(call: &mut Call<u32>, random: &mut Random, class: u16) -> Option<()> {
    let count = array_count(call, MARK_ARRAY_POS)?;
    let array = part(call, MARK_ARRAY_POS)?;
    let mark = random.below(count.max(1).into());
    (count > 0).then(|| edit::set_word(&mut call.store, array, 2 + 4 * mark, class))
}

/// Leads a position of the table to its base coverage.
fn stray(call: &mut Call<u32>, position: u32) -> Option<()> {
    let coverage = part(call, BASE_COVERAGE_POS)?;
    edit::link(&mut call.store, call.table, position, coverage);
    Some(())
}

/// Leads a position of an array to the base coverage, if the array is long enough.
fn stray_of_array(call: &mut Call<u32>, offset: usize, position: usize) -> Option<()> {
    let array = part(call, offset)?;
    let coverage = part(call, BASE_COVERAGE_POS)?;
    let fits = position + 2 <= edit::bytes(&call.store, array).len();
    fits.then(|| edit::link(&mut call.store, array, position as u32, coverage))
}

/// Some offset of an array.
fn anchor_link(call: &Call<u32>, random: &mut Random) -> Option<link::Row> {
    let array = part(call, random.pick(&ARRAYS))?;
    let rows = call.store.links_in_use().iter();
    let of_array = rows.filter(|row| link::is_offset(row) && row[0] == array);
    let of_array: Vec<_> = of_array.copied().collect();
    (!of_array.is_empty()).then(|| random.pick(&of_array))
}
