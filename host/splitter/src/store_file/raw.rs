//! A store file as it stands, whether or not its store is sound.

use super::{
    table,
    version::{link_numbers, lowest},
    FileError, StoreFile, Table, HEADER, MAGIC, VERSION,
};
use crate::{Link, Store, StoreRef};

/// What stands in a file. Its store may be unsound, and its tables may be none: it can be looked at.
///
/// ```
/// use splitter::{explain, store_file::{FileError, RawFile, StoreFile}, Refusal};
///
/// // One object of two bytes, in a file that has one byte of data.
/// let mut bytes = b"KRNS\0\x01\0\0\0\0\0\x01\0\0\0\x01\0\0\0\0".to_vec();
/// bytes.extend([7, 0, 0, 0, 0, 0, 0, 0, 2]);
/// assert_eq!(StoreFile::from_bytes(&bytes), Err(FileError::Store(Refusal::Unsound)));
///
/// let sentence = "the tail of object row 0 is 2; it must be at most 1, how many data bytes are in use";
/// assert_eq!(explain(RawFile::from_bytes(&bytes)?.view(), 0).to_string(), sentence);
/// # Ok::<(), FileError>(())
/// ```
#[derive(Clone, Debug, PartialEq, Eq)]
pub struct RawFile {
    version: u16,
    data: Vec<u8>,
    objects: Vec<u32>,
    links: Vec<u32>,
    counts: [u32; 3],
    entries: Vec<u32>,
}

impl RawFile {
    /// Reads what stands in a file.
    ///
    /// # Errors
    ///
    /// [`FileError::NotAStoreFile`], [`FileError::Version`] and [`FileError::Length`].
    pub fn from_bytes(bytes: &[u8]) -> Result<Self, FileError> {
        let (version, counts, rest) = header(bytes)?;
        let [data, objects, links] = counts;
        let (data, rest) = rest.split_at(data as usize);
        let (objects, rest) = rest.split_at(8 * objects as usize);
        let (links, tables) = rest.split_at(4 * link_numbers(version) * links as usize);
        Ok(Self {
            version,
            data: data.to_vec(),
            objects: numbers(objects),
            links: link_rows(links, link_numbers(version)),
            counts,
            entries: numbers(tables),
        })
    }

    /// The store, which may be unsound.
    pub fn view(&self) -> StoreRef<'_> {
        StoreRef::new(&self.data, &self.objects, &self.links, &self.counts)
    }

    /// The tables that it lists, which may not be there.
    ///
    /// # Errors
    ///
    /// [`FileError::Kind`].
    pub fn tables(&self) -> Result<Vec<Table>, FileError> {
        table::listed(self.version, &self.entries)
    }

    /// The file, if nothing is wrong with it.
    ///
    /// # Errors
    ///
    /// The first [`FileError`] that applies.
    pub fn into_file(self) -> Result<StoreFile, FileError> {
        let (version, tables) = (self.version, self.tables());
        let store = Store::from_parts(self.data, self.objects, self.links, self.counts);
        let (store, tables) = (store.map_err(FileError::Store)?, tables?);
        match lowest(store.view(), &tables) {
            lowest if lowest < version => Err(FileError::NeedlessVersion { version, lowest }),
            _ => StoreFile::new(store, tables),
        }
    }
}

/// The version, how many data bytes, objects and links there are in a file that is exactly as long as
/// its header asks for, and what comes behind the header.
fn header(bytes: &[u8]) -> Result<(u16, [u32; 3], &[u8]), FileError> {
    if !bytes.starts_with(&MAGIC) {
        return Err(FileError::NotAStoreFile);
    }
    let is = bytes.len() as u64;
    let short = FileError::Length {
        is,
        asked: HEADER as u64,
    };
    let version = bytes.get(4..6).ok_or(short)?;
    let version = number(version) as u16;
    if !(1..=VERSION).contains(&version) {
        return Err(FileError::Version { version });
    }
    let (header, rest) = bytes.split_at_checked(HEADER).ok_or(short)?;
    let tables = number(&header[6..8]);
    let counts = [8, 12, 16].map(|at| number(&header[at..at + 4]));
    let [data, objects, links] = counts.map(u64::from);
    let link_rows = 4 * link_numbers(version) as u64 * links;
    let asked = HEADER as u64 + data + 8 * objects + link_rows + 4 * u64::from(tables);
    match is == asked {
        true => Ok((version, counts, rest)),
        false => Err(FileError::Length { is, asked }),
    }
}

/// The number that up to four bytes are.
fn number(bytes: &[u8]) -> u32 {
    let longer = |number, &byte| number << 8 | u32::from(byte);
    bytes.iter().fold(0, longer)
}

fn numbers(bytes: &[u8]) -> Vec<u32> {
    bytes.chunks_exact(4).map(number).collect()
}

/// Whole link rows, of rows that have their first numbers: what is left out is 0, the kind of an offset.
fn link_rows(bytes: &[u8], numbers: usize) -> Vec<u32> {
    let rows = bytes.chunks_exact(4 * numbers).map(|row| {
        let mut whole = [0; Link::NUMBERS];
        for (place, bytes) in whole.iter_mut().zip(row.chunks_exact(4)) {
            *place = number(bytes);
        }
        whole
    });
    rows.flatten().collect()
}
