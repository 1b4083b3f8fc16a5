//! Stores that hold one MarkBasePos table, as object 0.

use oracle::{
    write::{self, words},
    ObjIdx, Store,
};

/// The table of every store here.
pub const TABLE: ObjIdx = 0;
/// The coverages and arrays that it leads to.
pub const MARK_COVERAGE: ObjIdx = 1;
pub const BASE_COVERAGE: ObjIdx = 2;
pub const MARK_ARRAY: ObjIdx = 3;
pub const BASE_ARRAY: ObjIdx = 4;

/// The bytes of a table and of all that it leads to itself.
#[derive(Clone)]
pub struct Marks {
    pub table: Vec<u8>,
    pub mark_coverage: Vec<u8>,
    pub base_coverage: Vec<u8>,
    pub mark_array: Vec<u8>,
    pub base_array: Vec<u8>,
}

impl Marks {
    /// Marks of these classes, glyphs 10, 20 and so on, and as many bases, which no glyph is covered
    /// of. All offsets are zero.
    pub fn new(classes: u16, mark_classes: &[u16], bases: u16) -> Self {
        let count = mark_classes.len() as u16;
        let glyphs: Vec<u16> = (1..=count).map(|i| 10 * i).collect();
        let records = mark_classes.iter().flat_map(|&class| [class, 0]);
        Self {
            table: words([1, 0, 0, classes, 0, 0]),
            mark_coverage: write::coverage(&glyphs),
            base_coverage: write::coverage(&[]),
            mark_array: words([count].into_iter().chain(records)),
            base_array: [words([bases]), vec![0; 2 * usize::from(bases * classes)]].concat(),
        }
    }

    /// Their store, without anchors.
    pub fn store(&self) -> Store {
        let mut store = Store::default();
        for bytes in [
            &self.table,
            &self.mark_coverage,
            &self.base_coverage,
            &self.mark_array,
            &self.base_array,
        ] {
            store.push_object(bytes);
        }
        let parts = [
            (2, MARK_COVERAGE),
            (4, BASE_COVERAGE),
            (8, MARK_ARRAY),
            (10, BASE_ARRAY),
        ];
        for (position, part) in parts {
            if self.table.len() >= position + 2 {
                store.push_link(TABLE, position as u32, part);
            }
        }
        store
    }
}

/// Links a position of an object to a new one of this length.
pub fn push_anchor(store: &mut Store, parent: ObjIdx, position: u32, len: usize) -> ObjIdx {
    let anchor = store.push_object(&vec![0; len]);
    store.push_link(parent, position, anchor);
    anchor
}
