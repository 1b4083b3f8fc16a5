//! What the versions of a file can say.

use super::Table;
use crate::{Kind, Link, StoreRef};

/// The newest version. A file is written in the lowest one that can say what it holds.
pub const VERSION: u16 = 3;

/// The first version that says what its tables are for.
const TABLE_KINDS: u16 = 2;

/// The first version that says of what kind its links are.
const LINK_KINDS: u16 = 3;

/// The lowest version that can say what these links and tables are.
pub(super) fn lowest(store: StoreRef, tables: &[Table]) -> u16 {
    let offsets_alone = store.links().all(Link::is_offset);
    let pairs_alone = tables.iter().all(|table| table.kind == Kind::Pairs);
    match (offsets_alone, pairs_alone) {
        (true, true) => 1,
        (true, false) => TABLE_KINDS,
        (false, _) => LINK_KINDS,
    }
}

/// Whether it says what its tables are for. In a version that does not, all are for pairs.
pub(super) const fn has_table_kinds(version: u16) -> bool {
    version >= TABLE_KINDS
}

/// How many numbers of a link's row it has: all, or all but the kind. In a version that has none, all links
/// are offsets.
pub(super) const fn link_numbers(version: u16) -> usize {
    match version >= LINK_KINDS {
        true => Link::NUMBERS,
        false => Link::NUMBERS - 1,
    }
}
