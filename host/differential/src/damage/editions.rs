//! Editions that there are not.

use super::Named;

pub const OTHERS: &[Named] = &[
    ("no edition", |call, _| {
        call.edition = 0;
        Some(())
    }),
    ("the edition behind the last", |call, _| {
        call.edition = 3;
        Some(())
    }),
    ("the greatest of all editions", |call, _| {
        call.edition = u32::MAX;
        Some(())
    }),
];
