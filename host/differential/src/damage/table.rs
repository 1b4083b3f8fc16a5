//! Tables that are not there, or not as long as they say.

use super::Named;
use crate::{
    edit,
    model::{
        header::{Format, Header},
        numbers::u16_at,
    },
    Call,
};

pub const NUMBERS: &[Named] = &[
    ("the number behind the last in use", |call, _| {
        call.table = call.store.counts[1];
        Some(())
    }),
    ("the greatest of all table numbers", |call, _| {
        call.table = u32::MAX;
        Some(())
    }),
];

pub const LENGTHS: &[Named] = &[
    ("a table of no bytes", |call, _| cut_to(call, 0)),
    ("a table of one byte", |call, _| cut_to(call, 1)),
    ("a header of two bytes", |call, _| cut_to(call, 2)),
    ("a header one byte short", |call, _| {
        let header = header(call)?;
        cut_to(call, header.format.min_size() - 1)
    }),
    ("a table one byte short", |call, _| {
        let len = edit::bytes(&call.store, call.table).len();
        cut_to(call, len - 1)
    }),
    ("a table one byte long", |call, _| {
        let longer = [edit::bytes(&call.store, call.table), &[0]].concat();
        edit::replace(&mut call.store, call.table, &longer);
        Some(())
    }),
    ("a table one item long", |call, _| {
        let header = header(call)?;
        let len = header.item_pos(header.items + 1);
        let mut longer = edit::bytes(&call.store, call.table).to_vec();
        longer.resize(len, 0);
        edit::replace(&mut call.store, call.table, &longer);
        (header.item_size() > 0).then_some(())
    }),
    ("a count one too high", |call, _| {
        let header = header(call)?;
        let count = u16::try_from(header.items + 1).ok()?;
        set_count(call, &header, count)
    }),
    ("a count one too low", |call, _| {
        let header = header(call)?;
        let count = header.items.checked_sub(1)? as u16;
        set_count(call, &header, count)
    }),
    ("the greatest of all sizes", |call, _| {
        let header = header(call)?;
        let head = edit::head(&call.store, call.table);
        let end = header.format.min_size();
        call.store.data[head + 4..head + end].fill(0xFF);
        Some(())
    }),
];

/// The table's header, if the table is as long as it says.
pub fn header(call: &Call<u32>) -> Option<Header> {
    let bytes = edit::bytes(&call.store, call.table);
    Header::read(Format::of(u16_at(bytes, 0)?)?, bytes)
}

fn cut_to(call: &mut Call<u32>, len: usize) -> Option<()> {
    let bytes = edit::bytes(&call.store, call.table)[..len].to_vec();
    edit::replace(&mut call.store, call.table, &bytes);
    Some(())
}

/// Sets another count of items, where that makes another length.
fn set_count(call: &mut Call<u32>, header: &Header, count: u16) -> Option<()> {
    let at = edit::head(&call.store, call.table) + header.format.count_pos();
    call.store.data[at..at + 2].copy_from_slice(&count.to_be_bytes());
    (header.item_size() > 0).then_some(())
}
