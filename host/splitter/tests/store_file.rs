//! Store files: their bytes, and files that are refused.

mod common;

use common::store;
use splitter::{
    explain, read_pair,
    store_file::{FileError, RawFile, StoreFile, Table},
    Refusal, Store,
};

/// Tables for pairs.
fn pairs(numbers: &[u32]) -> Vec<Table> {
    numbers.iter().map(|&number| Table::pairs(number)).collect()
}

/// A table of one pair set, its coverage, and an object that nothing leads to.
fn small() -> StoreFile {
    let objects: [&[u16]; 4] = [&[1, 0, 4, 0, 1, 0], &[1, 1, 7], &[1, 70, 0xFFE2], &[]];
    let store = store(&objects, &[[0, 2, 1], [0, 10, 2]]);
    StoreFile::new(store, pairs(&[0, 2])).unwrap()
}

/// The same, as if the second one were for marks.
fn small_marks() -> StoreFile {
    let tables = vec![Table::pairs(0), Table::marks(2)];
    StoreFile::new(small().into_parts().0, tables).unwrap()
}

/// The same in a file: version 2, and the lookups' types beside the numbers.
fn small_marks_bytes() -> Vec<u8> {
    let mut bytes = small_bytes();
    let end = bytes.len();
    bytes[5] = 2;
    bytes[end - 8..].copy_from_slice(&[0, 2, 0, 0, 0, 4, 0, 2]);
    bytes
}

/// The same with order-only links, from the table to its pair set and from the last object to itself; all
/// listed tables are for pairs.
fn small_orders() -> StoreFile {
    let mut store = small().into_parts().0;
    store.add_order_link(0, 2).unwrap();
    store.add_order_link(3, 3).unwrap();
    StoreFile::new(store, pairs(&[0, 2])).unwrap()
}

/// The same in a file.
fn small_bytes() -> Vec<u8> {
    bytes_of("\0\x01", "\0\0\0\x02", &[0, 2, 2, 1, 0, 10, 2, 2], &[0, 2])
}

/// The same with order-only links in a file: version 3, and the kinds of links behind their children.
fn small_orders_bytes() -> Vec<u8> {
    let rows = [
        [0, 2, 2, 1, 0],
        [0, 10, 2, 2, 0],
        [0, 0, 0, 2, 1],
        [3, 0, 0, 3, 1],
    ];
    let tables = [0x2_0000, 0x2_0002];
    bytes_of("\0\x03", "\0\0\0\x04", rows.as_flattened(), &tables)
}

/// A file of this version, with so many links, these rows of them, and these tables.
fn bytes_of(version: &str, links: &str, rows: &[u32], tables: &[u32]) -> Vec<u8> {
    let header = ["KRNS", version, "\0\x02", "\0\0\0\x18", "\0\0\0\x04", links];
    let mut bytes = header.concat().into_bytes();
    bytes.extend([0, 1, 0, 0, 0, 4, 0, 0, 0, 1, 0, 0]);
    bytes.extend([0, 1, 0, 1, 0, 7]);
    bytes.extend([0, 1, 0, 70, 0xFF, 0xE2]);
    let objects = [0, 12, 12, 18, 18, 24, 24, 24];
    for number in [&objects, rows, tables].concat() {
        bytes.extend(u32::to_be_bytes(number));
    }
    bytes
}

fn error(bytes: &[u8]) -> FileError {
    StoreFile::from_bytes(bytes).unwrap_err()
}

#[test]
fn the_layout() {
    assert_eq!(small().to_bytes(), small_bytes());
    assert_eq!(StoreFile::from_bytes(&small_bytes()), Ok(small()));
    assert_eq!(small_marks().to_bytes(), small_marks_bytes());
    assert_eq!(
        StoreFile::from_bytes(&small_marks_bytes()),
        Ok(small_marks())
    );
    assert_eq!(small_orders().to_bytes(), small_orders_bytes());
    assert_eq!(
        StoreFile::from_bytes(&small_orders_bytes()),
        Ok(small_orders())
    );
}

/// Order-only links and tables for marks in one file.
#[test]
fn links_and_tables_of_both_kinds() {
    let tables = vec![Table::pairs(0), Table::marks(2)];
    let file = StoreFile::new(small_orders().into_parts().0, tables).unwrap();
    let mut bytes = small_orders_bytes();
    let place = bytes.len() - 3;
    bytes[place] = 4;
    assert_eq!(file.to_bytes(), bytes);
    assert_eq!(StoreFile::from_bytes(&bytes), Ok(file));
}

/// Kinds of tables that are not known.
#[test]
fn kinds_of_tables() {
    for (kind, known) in [(0, false), (2, true), (3, false), (4, true), (260, false)] {
        let mut bytes = small_marks_bytes();
        let place = bytes.len() - 8;
        bytes[place..place + 2].copy_from_slice(&u16::to_be_bytes(kind));
        match known {
            true => assert!(StoreFile::from_bytes(&bytes).is_ok()),
            false => assert_eq!(error(&bytes), FileError::Kind { kind }),
        }
    }
}

/// Versions 2 and 3 of what version 1 can say, with tables and without, and version 3 of what version 2 can.
#[test]
fn versions_that_are_not_needed() {
    let needless = |version, lowest| FileError::NeedlessVersion { version, lowest };
    let mut bytes = small_marks_bytes();
    let place = bytes.len() - 3;
    bytes[place] = 2;
    assert_eq!(error(&bytes), needless(2, 1));
    let none = [&bytes[..6], &[0, 0], &bytes[8..bytes.len() - 8]].concat();
    assert_eq!(error(&none), needless(2, 1));
    let rows = [0, 2, 2, 1, 0, 0, 10, 2, 2, 0];
    let of_version3 = |tables| bytes_of("\0\x03", "\0\0\0\x02", &rows, tables);
    assert_eq!(error(&of_version3(&[0x2_0000, 0x2_0002])), needless(3, 1));
    assert_eq!(error(&of_version3(&[0x2_0000, 0x4_0002])), needless(3, 2));
    let sentence = needless(3, 2).to_string();
    assert!(sentence.ends_with("that version 2 cannot say: write it in version 2"));
}

/// One table is of one kind.
#[test]
fn a_table_of_two_kinds() {
    let tables = vec![Table::pairs(0), Table::marks(0)];
    let refused = StoreFile::new(small().into_parts().0, tables).unwrap_err();
    assert_eq!(refused, FileError::TableTwice { table: 0 });
}

/// The example in the document: numbers of two digits at the start of its lines.
#[test]
fn the_documents_example() {
    let document = include_str!("../../../docs/STORE_FILE.md");
    let is_byte = |word: &&str| word.len() == 2;
    let lines = document.lines().filter(|line| line.starts_with("    "));
    let words = lines.flat_map(|line| line.split_whitespace().take_while(is_byte));
    let bytes: Vec<u8> = words
        .map(|word| u8::from_str_radix(word, 16).unwrap())
        .collect();
    let file = StoreFile::from_bytes(&bytes).unwrap();
    assert_eq!(file.tables(), pairs(&[0]));
    assert_eq!(file.to_bytes(), bytes);
    let pair = read_pair(file.store(), 0, 7, 70).unwrap().unwrap();
    assert_eq!(pair.first.x_advance, -30);
}

#[test]
fn nothing_at_all() {
    let file = StoreFile::default();
    assert_eq!(file.to_bytes().len(), 20);
    assert_eq!(StoreFile::from_bytes(&file.to_bytes()), Ok(file));
}

/// Room is not written, and what stands between objects is.
#[test]
fn what_is_written() {
    let (mut data, mut objects, mut links, mut counts) = small().into_parts().0.into_parts();
    data.extend([9; 5]);
    counts[0] += 3;
    objects.extend([7; 5]);
    links.extend([7; 11]);
    objects[7] = 26;
    let store = Store::from_parts(data, objects, links, counts).unwrap();
    let bytes = StoreFile::new(store, pairs(&[0, 2])).unwrap().to_bytes();
    assert_eq!(bytes.len(), small_bytes().len() + 3);
    let file = StoreFile::from_bytes(&bytes).unwrap();
    assert_eq!(file.store().view().object(3), Some(&[9, 9][..]));
    assert_eq!(file.to_bytes(), bytes);
}

#[test]
fn other_files() {
    for bytes in [&b""[..], b"KRN", b"SNRK, and more", b"\0\x01\0\0"] {
        assert_eq!(error(bytes), FileError::NotAStoreFile);
    }
    for version in [0, 4, 256, 65_535] {
        let mut bytes = small_bytes();
        bytes[4..6].copy_from_slice(&u16::to_be_bytes(version));
        assert_eq!(error(&bytes), FileError::Version { version });
        assert_eq!(error(&bytes[..6]), FileError::Version { version });
    }
    let sentence = FileError::Version { version: 4 }.to_string();
    assert!(sentence.starts_with("it is a store file of version 4, and only versions 1 to 3"));
}

/// A version says how long link rows are: of another version a file has another length.
#[test]
fn rows_of_other_versions() {
    let (mut old, mut new) = (small_bytes(), small_orders_bytes());
    (old[5], new[5]) = (3, 1);
    for (bytes, asked) in [(&old, old.len() + 2 * 4), (&new, new.len() - 4 * 4)] {
        let [is, asked] = [bytes.len() as u64, asked as u64];
        assert_eq!(error(bytes), FileError::Length { is, asked });
    }
}

#[test]
fn files_of_another_length() {
    for bytes in [small_bytes(), small_orders_bytes()] {
        for len in 4..bytes.len() {
            let asked = if len < 20 { 20 } else { bytes.len() as u64 };
            let is = len as u64;
            assert_eq!(error(&bytes[..len]), FileError::Length { is, asked });
        }
        let longer = [&bytes[..], &[0]].concat();
        let [is, asked] = [longer.len() as u64, bytes.len() as u64];
        assert_eq!(error(&longer), FileError::Length { is, asked });
    }
}

/// Counts that no file is long enough for.
#[test]
fn the_largest_counts() {
    for (mut bytes, row) in [(small_bytes(), 16), (small_orders_bytes(), 20)] {
        bytes[6..20].fill(0xFF);
        let asked = 20 + (1 + 8 + row) * u64::from(u32::MAX) + 4 * u64::from(u16::MAX);
        let is = bytes.len() as u64;
        assert_eq!(error(&bytes), FileError::Length { is, asked });
    }
}

/// Any byte may be any other: what is then read is written as it was.
#[test]
fn a_damaged_byte() {
    for bytes in [small_bytes(), small_marks_bytes(), small_orders_bytes()] {
        let read = damage_each_byte(&bytes);
        assert!(read > 24 * 256);
    }
}

/// How many of the damaged files were read.
fn damage_each_byte(bytes: &[u8]) -> usize {
    let mut read = 0;
    for place in 0..bytes.len() {
        for byte in 0..=u8::MAX {
            let mut bytes = bytes.to_vec();
            bytes[place] = byte;
            match StoreFile::from_bytes(&bytes) {
                Ok(file) => {
                    assert_eq!(file.to_bytes(), bytes);
                    read += 1;
                }
                Err(error) => assert!(error.to_string().len() > 20),
            }
        }
    }
    read
}

#[test]
fn tables_that_cannot_be_listed() {
    let listed = |tables: &[u32]| {
        let refused = StoreFile::new(small().into_parts().0, pairs(tables)).unwrap_err();
        let mut bytes = small_bytes();
        let end = bytes.len() - 8;
        bytes.truncate(end);
        bytes[7] = tables.len() as u8;
        bytes.extend(tables.iter().flat_map(|table| table.to_be_bytes()));
        assert_eq!(error(&bytes), refused);
        refused
    };
    let no_table = FileError::NoTable {
        table: 4,
        objects: 4,
    };
    assert_eq!(listed(&[0, 4]), no_table);
    assert_eq!(listed(&[3, 0, 3]), FileError::TableTwice { table: 3 });
}

#[test]
fn tables_without_end() {
    let mut store = Store::new();
    for _ in 0..65_536 {
        store.add_object(&[]).unwrap();
    }
    for table in [Table::pairs, Table::marks] {
        let all: Vec<Table> = (0..65_536).map(table).collect();
        let most = StoreFile::new(store.clone(), all[1..].to_vec()).unwrap();
        assert_eq!(StoreFile::from_bytes(&most.to_bytes()), Ok(most));
        let refused = StoreFile::new(store.clone(), all);
        assert_eq!(refused, Err(FileError::ManyTables));
    }
}

/// The store's own sentence says what is wrong with it.
#[test]
fn stores_that_are_not_sound() {
    let mut bytes = small_bytes();
    let links = 20 + 24 + 32;
    bytes[links + 7] = 10;
    let refused = FileError::Store(Refusal::Unsound);
    assert_eq!(error(&bytes), refused);
    assert_eq!(refused.to_string(), Refusal::Unsound.to_string());
}

/// Links of version 3 whose kinds are others: one that there is not, an offset that is order-only, and the
/// other way round all that are. The file can be looked at, also where a lower version would do.
#[test]
fn links_of_other_kinds() {
    let links = 20 + 24 + 32;
    for (rows, kind, sentence) in [
        (
            &[0][..],
            2,
            "link row 0 of object 0 at position 2: its kind is 2; it must be 0 or 1, an offset or an \
             order-only link",
        ),
        (
            &[0],
            1,
            "link row 0 of object 0, order-only: its width is 2; it must be 0",
        ),
        (
            &[2, 3],
            0,
            "link row 2 of object 0 at position 0: its width is 0; it must be 2",
        ),
    ] {
        let mut bytes = small_orders_bytes();
        for row in rows {
            bytes[links + 20 * row + 19] = kind;
        }
        assert_eq!(error(&bytes), FileError::Store(Refusal::Unsound));
        let file = RawFile::from_bytes(&bytes).unwrap();
        assert_eq!(explain(file.view(), 0).to_string(), sentence);
        assert_eq!(file.tables(), Ok(pairs(&[0, 2])));
    }
}
