//! Stores as files.
//!
//! A host that wants a store looked at writes it to a file; the command `splitter` plans, splits and
//! reads such files. All numbers are big-endian, and nothing stands between the parts:
//!
//! | at | bytes | what |
//! |---|---|---|
//! | 0 | 4 | the letters `KRNS` |
//! | 4 | 2 | the version, 1 to 3 |
//! | 6 | 2 | T, how many tables are listed |
//! | 8 | 4 | D, how many data bytes there are |
//! | 12 | 4 | O, how many objects there are |
//! | 16 | 4 | L, how many links there are |
//! | 20 | D | the data bytes |
//! | 20 + D | 8 · O | object rows: head and tail, 4 bytes each |
//! | 20 + D + 8 · O | R · L | link rows: parent, position, width, child and, in version 3, kind, 4 bytes each |
//! | 20 + D + 8 · O + R · L | 4 · T | the tables, 4 bytes each |
//!
//! The file ends there. The listed tables are those that the file is about, in the order in which a
//! shaper asks them: each is an object in use, and none is listed twice.
//!
//! | version | R | links | tables |
//! |---|---|---|---|
//! | 1 | 16 | offsets alone | PairPos alone: the object's number |
//! | 2 | 16 | offsets alone | two numbers: the type of the lookup, which is 2 for PairPos and 4 for MarkBasePos, and the object's number |
//! | 3 | 20 | both kinds | as in version 2 |
//!
//! A file has the lowest version that can say what it holds, and its store is sound. Whatever is otherwise
//! is refused when the file is read, so what was read is written as the same bytes again.

mod error;
mod raw;
mod table;
mod version;

pub use error::FileError;
pub use raw::RawFile;
pub use table::Table;
pub use version::VERSION;

use crate::Store;
use std::collections::HashSet;

/// The letters that a store file starts with.
pub const MAGIC: [u8; 4] = *b"KRNS";

/// The bytes before the data.
const HEADER: usize = 20;

/// A store, and the tables in it that the file is about.
///
/// ```
/// use splitter::store_file::{StoreFile, Table};
/// use splitter::Store;
///
/// let mut store = Store::new();
/// let table = store.add_object(&[0, 1, 0, 0, 0, 4, 0, 0, 0, 0])?;
/// let coverage = store.add_object(&[0, 1, 0, 0])?;
/// store.add_link(table, 2, coverage)?;
///
/// let bytes = StoreFile::new(store, vec![Table::pairs(table)])?.to_bytes();
/// let file = StoreFile::from_bytes(&bytes)?;
/// assert_eq!(file.tables(), [Table::pairs(table)]);
/// assert_eq!(file.store().view().child(table, 2), Some(coverage));
/// assert_eq!(file.to_bytes(), bytes);
/// # Ok::<(), Box<dyn std::error::Error>>(())
/// ```
#[derive(Clone, Debug, Default, PartialEq, Eq)]
pub struct StoreFile {
    store: Store,
    tables: Vec<Table>,
}

impl StoreFile {
    /// A file of a store, about these tables.
    ///
    /// # Errors
    ///
    /// [`FileError::NoTable`], [`FileError::TableTwice`] and [`FileError::ManyTables`].
    pub fn new(store: Store, tables: Vec<Table>) -> Result<Self, FileError> {
        let [_, objects, _] = store.view().counts();
        let mut listed = HashSet::new();
        for &Table { number: table, .. } in &tables {
            if table >= objects {
                return Err(FileError::NoTable { table, objects });
            }
            if !listed.insert(table) {
                return Err(FileError::TableTwice { table });
            }
        }
        match u16::try_from(tables.len()) {
            Ok(_) => Ok(Self { store, tables }),
            Err(_) => Err(FileError::ManyTables),
        }
    }

    /// Reads a file.
    ///
    /// # Errors
    ///
    /// The first [`FileError`] that applies.
    pub fn from_bytes(bytes: &[u8]) -> Result<Self, FileError> {
        RawFile::from_bytes(bytes)?.into_file()
    }

    /// The file's bytes.
    pub fn to_bytes(&self) -> Vec<u8> {
        let view = self.store.view();
        let [data, objects, links] = view.counts();
        let version = version::lowest(view, &self.tables);
        let tables = self.tables.iter().map(|table| table::entry(version, table));
        let tables: Vec<u32> = tables.collect();
        let mut bytes = Vec::new();
        bytes.extend(MAGIC);
        bytes.extend(version.to_be_bytes());
        bytes.extend((self.tables.len() as u16).to_be_bytes());
        extend(&mut bytes, &[data, objects, links]);
        bytes.extend(view.data());
        extend(&mut bytes, &view.objects[..2 * objects as usize]);
        for row in view.link_rows() {
            extend(&mut bytes, &row[..version::link_numbers(version)]);
        }
        extend(&mut bytes, &tables);
        bytes
    }

    /// The store.
    pub const fn store(&self) -> &Store {
        &self.store
    }

    /// The tables that the file is about.
    pub fn tables(&self) -> &[Table] {
        &self.tables
    }

    /// The store, and the tables that the file is about.
    pub fn into_parts(self) -> (Store, Vec<Table>) {
        (self.store, self.tables)
    }
}

fn extend(bytes: &mut Vec<u8>, numbers: &[u32]) {
    bytes.extend(numbers.iter().flat_map(|number| number.to_be_bytes()));
}
