//! Stores that hold one PairPos table, as object 0.

use oracle::{
    write::{self, words},
    ObjIdx, Store,
};

/// The table of every store here.
pub const TABLE: ObjIdx = 0;

/// A table of its header and then zeros, up to this length.
pub fn table(header: &[u16], len: usize) -> Vec<u8> {
    let mut bytes = words(header.iter().copied());
    bytes.resize(len, 0);
    bytes
}

/// A format 1 table of this many empty slots. Its coverage is object 1.
pub fn format1_slots(glyphs: &[u16], slots: u16) -> Store {
    let mut store = Store::default();
    store.push_object(&table(&[1, 0, 4, 0, slots], 10 + 2 * slots as usize));
    let coverage = store.push_object(&write::coverage(glyphs));
    store.push_link(TABLE, 2, coverage);
    store
}

/// A format 1 table with a pair set of each length, from object 2 on.
pub fn format1(glyphs: &[u16], set_lengths: &[usize]) -> Store {
    let mut store = format1_slots(glyphs, set_lengths.len() as u16);
    for (i, &len) in set_lengths.iter().enumerate() {
        let set = store.push_object(&vec![0; len]);
        store.push_link(TABLE, 10 + 2 * i as u32, set);
    }
    store
}

/// A format 2 table, but for its coverage and class definitions.
pub struct Format2 {
    pub formats: [u16; 2],
    pub rows: u16,
    pub columns: u16,
}

impl Format2 {
    pub fn row_size(&self) -> usize {
        let fields: u32 = self.formats.map(|f| (f & 0xFF).count_ones()).iter().sum();
        2 * fields as usize * self.columns as usize
    }

    pub fn header(&self) -> [u16; 8] {
        let [format1, format2] = self.formats;
        [2, 0, format1, format2, 0, 0, self.rows, self.columns]
    }

    /// Its store, the records being zero. Coverage and class definitions are objects 1 to 3.
    pub fn store(&self, glyph_classes: &[(u16, u16)], class_def2: &[u8]) -> Store {
        let len = 16 + self.rows as usize * self.row_size();
        self.store_with(&table(&self.header(), len), glyph_classes, class_def2)
    }

    /// Its store with these bytes for the table.
    pub fn store_with(
        &self,
        table: &[u8],
        glyph_classes: &[(u16, u16)],
        class_def2: &[u8],
    ) -> Store {
        let glyphs: Vec<u16> = glyph_classes.iter().map(|&(glyph, _)| glyph).collect();
        let mut store = Store::default();
        store.push_object(table);
        let coverage = store.push_object(&write::coverage(&glyphs));
        let class_def1 = store.push_object(&write::class_def(glyph_classes));
        let class_def2 = store.push_object(class_def2);
        store.push_link(TABLE, 2, coverage);
        store.push_link(TABLE, 8, class_def1);
        store.push_link(TABLE, 10, class_def2);
        store
    }
}
