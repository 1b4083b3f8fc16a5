//! Coverage and class definitions that are not linked, unreadable or too short.

use super::{table::header, Named};
use crate::{
    edit,
    model::{header::Format, numbers},
    Call, Random,
};

pub const UNREADABLE: &[Named] = &[
    ("a part that is not linked", |call, random| {
        let offset = offset(call, random)?;
        edit::unlink(&mut call.store, call.table, offset);
        Some(())
    }),
    ("a part that is linked by order only", |call, random| {
        let offset = offset(call, random)?;
        let part = edit::child_at(&call.store, call.table, offset)?;
        edit::unlink(&mut call.store, call.table, offset);
        edit::order(&mut call.store, call.table, part);
        Some(())
    }),
    ("a part of no bytes", |call, random| {
        change(call, random, |bytes| bytes.clear())
    }),
    ("a part of three bytes", |call, random| {
        change(call, random, |bytes| bytes.truncate(3))
    }),
    ("a part one byte short", |call, random| {
        change(call, random, |bytes| bytes.truncate(bytes.len() - 1))
    }),
    ("a part one byte long", |call, random| {
        change(call, random, |bytes| bytes.push(0))
    }),
    ("a part of another format", |call, random| {
        let format = random.pick(&[0, 3]);
        change(call, random, |bytes| bytes[1] = format)
    }),
    ("an unreadable coverage", |call, random| {
        let words = random.pick(COVERAGES);
        replace(call, 2, words)
    }),
    ("an unreadable class definition", |call, random| {
        let offset = random.pick(&[8, 10]);
        let words = random.pick(CLASS_DEFS);
        (header(call)?.format == Format::Two).then_some(())?;
        replace(call, offset, words)
    }),
];

pub const FEW_GLYPHS: &[Named] = &[("one covered glyph too few", |call, _| {
    let header = header(call)?;
    let count = header.items.checked_sub(1)? as u16;
    (header.format == Format::One).then_some(())?;
    let words: Vec<u16> = [1, count].into_iter().chain(0..count).collect();
    replace(call, 2, &words)
})];

/// Each way in which a coverage is unreadable.
pub const COVERAGES: &[&[u16]] = &[
    &[1],
    &[1, 1],
    &[1, 0, 5],
    &[1, 2, 7, 7],
    &[1, 2, 8, 7],
    &[1, 3, 1, 3, 2],
    &[2, 1],
    &[2, 0, 5, 5, 0],
    &[2, 1, 8, 7, 0],
    &[2, 1, 5, 7, 1],
    &[2, 2, 5, 7, 0, 7, 9, 3],
    &[2, 2, 5, 7, 0, 1, 2, 3],
    &[2, 2, 5, 7, 0, 8, 9, 2],
    &[2, 2, 5, 7, 0, 8, 9, 4],
    &[2, 1, 5, 7, 0, 0],
];

/// Each way in which a class definition is unreadable.
pub const CLASS_DEFS: &[&[u16]] = &[
    &[1],
    &[1, 0],
    &[1, 0, 1],
    &[1, 0, 0, 1],
    &[1, 65_535, 2, 1, 1],
    &[1, 65_534, 3, 1, 1, 1],
    &[2, 1],
    &[2, 0, 5, 5, 1],
    &[2, 1, 8, 7, 1],
    &[2, 2, 5, 7, 1, 7, 9, 2],
    &[2, 2, 5, 7, 1, 1, 2, 1],
    &[2, 1, 5, 7, 1, 0],
];

/// Some offset of the header.
fn offset(call: &Call<u32>, random: &mut Random) -> Option<u32> {
    Some(random.pick(header(call)?.format.offsets()) as u32)
}

/// Changes the bytes of some part.
fn change(call: &mut Call<u32>, random: &mut Random, change: impl Fn(&mut Vec<u8>)) -> Option<()> {
    let offset = offset(call, random)?;
    let part = edit::child_at(&call.store, call.table, offset)?;
    let mut bytes = edit::bytes(&call.store, part).to_vec();
    change(&mut bytes);
    edit::replace(&mut call.store, part, &bytes);
    Some(())
}

/// Gives other bytes to the part at an offset.
fn replace(call: &mut Call<u32>, offset: u32, words: &[u16]) -> Option<()> {
    let part = edit::child_at(&call.store, call.table, offset)?;
    let bytes = numbers::bytes(words.iter().copied());
    edit::replace(&mut call.store, part, &bytes);
    Some(())
}
