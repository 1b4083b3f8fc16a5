//! Room that is one short. Only a table that is cut needs any.

use super::Named;
use crate::Call;
use oracle::link;

pub const STORE: &[Named] = &[
    ("the data one byte short", |call, _| {
        needs_room(call)?;
        call.store.data.pop().map(drop)
    }),
    ("the objects half a row short", |call, _| {
        needs_room(call)?;
        call.store.objects.pop().map(drop)
    }),
    ("the objects one row short", |call, _| {
        needs_room(call)?;
        let len = call.store.objects.len();
        call.store.objects.truncate(len - 2);
        Some(())
    }),
    ("the links a part of a row short", |call, random| {
        needs_room(call)?;
        let len = call.store.links.len();
        let less = random.within(1..=link::NUMBERS - 1);
        call.store.links.truncate(len - less);
        Some(())
    }),
    ("the links one row short", |call, _| {
        needs_room(call)?;
        let len = call.store.links.len();
        call.store.links.truncate(len - link::NUMBERS);
        Some(())
    }),
];

pub const LIST: &[Named] = &[("the list one entry short", |call, _| {
    call.list.pop().map(drop)
})];

/// A call that is lent exactly what it needs has a list of one entry for each cut.
fn needs_room(call: &Call<u32>) -> Option<()> {
    (!call.list.is_empty()).then_some(())
}
