//! Order-only links that are not of their shape, or not in their place.

use super::{
    soundness::{any_offset, links},
    Named,
};
use crate::{edit, Call, Random};
use oracle::link;

pub const DAMAGES: &[Named] = &[
    ("an order-only link at a position", |call, random| {
        let position = random.pick(&[1, 2, u32::MAX]);
        any_order(call, random)?[1] = position;
        Some(())
    }),
    ("an order-only link of a width", |call, random| {
        let width = random.pick(&[1, 2, u32::MAX]);
        any_order(call, random)?[2] = width;
        Some(())
    }),
    ("an offset that is said to be order-only", |call, random| {
        any_offset(call, random)?[4] = link::ORDER_ONLY;
        Some(())
    }),
    (
        "an order-only link that is said to be an offset",
        |call, random| {
            any_order(call, random)?[4] = link::OFFSET;
            Some(())
        },
    ),
    (
        "an order-only link before an offset of its parent",
        |call, random| {
            let parent = any_offset(call, random)?[0];
            let child = any_object(call, random);
            edit::order(&mut call.store, parent, child);
            let rows = links(call);
            let is_order = |row: &link::Row| row[0] == parent && !link::is_offset(row);
            let first = rows.iter().position(is_order)?;
            rows.swap(first - 1, first);
            Some(())
        },
    ),
    (
        "two order-only links not in order of their children",
        |call, random| {
            let [first, second] = two_orders(call, random)?;
            std::mem::swap(first, second);
            Some(())
        },
    ),
    ("two order-only links to one child", |call, random| {
        let [first, second] = two_orders(call, random)?;
        *second = *first;
        Some(())
    }),
    (
        "an order-only link behind those of a later object",
        |call, random| {
            let last = links(call).last()?[0];
            let (parent, child) = (any_object(call, random), any_object(call, random));
            push_row(call, link::order_only(parent, child));
            (parent < last).then_some(())
        },
    ),
    ("an order-only link of no object", |call, random| {
        let (parent, child) = (call.store.counts[1], any_object(call, random));
        push_row(call, link::order_only(parent, child));
        Some(())
    }),
    ("an order-only link to no object", |call, random| {
        let (parent, child) = (any_object(call, random), call.store.counts[1]);
        edit::order(&mut call.store, parent, child);
        Some(())
    }),
    (
        "an order-only link to the greatest of all numbers",
        |call, random| {
            let parent = any_object(call, random);
            edit::order(&mut call.store, parent, u32::MAX);
            Some(())
        },
    ),
];

fn any_object(call: &Call<u32>, random: &mut Random) -> u32 {
    random.below(call.store.counts[1] as usize) as u32
}

/// An order-only link of any object to any other or to itself.
fn any_order<'a>(call: &'a mut Call<u32>, random: &mut Random) -> Option<&'a mut link::Row> {
    let (parent, child) = (any_object(call, random), any_object(call, random));
    edit::order(&mut call.store, parent, child);
    let row = link::order_only(parent, child);
    links(call).iter_mut().find(|other| **other == row)
}

/// Two order-only links of one object, one behind the other.
fn two_orders<'a>(call: &'a mut Call<u32>, random: &mut Random) -> Option<&'a mut [link::Row; 2]> {
    let parent = any_object(call, random);
    let [a, b] = [(); 2].map(|()| any_object(call, random));
    edit::order(&mut call.store, parent, a);
    edit::order(&mut call.store, parent, b);
    let first = link::order_only(parent, a.min(b));
    let rows = links(call);
    let place = rows.iter().position(|row| *row == first)?;
    (a != b).then_some(())?;
    rows[place..].first_chunk_mut()
}

/// Adds a row behind all others.
fn push_row(call: &mut Call<u32>, row: link::Row) {
    let end = link::NUMBERS * call.store.counts[2] as usize;
    call.store.links.splice(end..end, row);
    call.store.counts[2] += 1;
}
