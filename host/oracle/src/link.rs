//! Link rows: what a row of the store says.

/// How many numbers a row has.
pub const NUMBERS: usize = 5;

/// Parent, position, width, child, kind.
pub type Row = [u32; NUMBERS];

/// The kind of a link that is an offset of its parent.
pub const OFFSET: u32 = 0;

/// The kind of a link that only says that its parent is placed after its child.
pub const ORDER_ONLY: u32 = 1;

/// An offset of two bytes.
pub fn offset(parent: u32, position: u32, child: u32) -> Row {
    [parent, position, 2, child, OFFSET]
}

/// An order-only link.
pub fn order_only(parent: u32, child: u32) -> Row {
    [parent, 0, 0, child, ORDER_ONLY]
}

/// Whether a row is an offset.
pub fn is_offset(row: &Row) -> bool {
    row[4] == OFFSET
}

/// What rows strictly ascend by: parent, kind, position, child.
pub fn rank(&[parent, position, _, child, kind]: &Row) -> [u32; 4] {
    [parent, kind, position, child]
}
