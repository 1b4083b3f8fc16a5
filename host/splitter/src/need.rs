//! What a call needs to be lent, by what the headers of the table and of its parts say.

use crate::{lookup::Naming, table::word, Kind, Room, StoreRef};

/// What a split or a cut plan of a table needs.
///
/// Where a header cannot be read the numbers mean nothing. The call is then refused for that, before it
/// looks at what it is lent.
pub(crate) struct Need {
    /// The objects in use.
    pub objects: usize,
    /// The covered glyphs.
    pub glyphs: usize,
    /// The pair sets, rows or mark classes.
    pub items: usize,
    /// The room that each cut needs.
    each_cut: Room,
    /// The room that is needed once, with any cut.
    once: Room,
}

impl Need {
    pub fn of(kind: Kind, store: StoreRef, table: u32) -> Self {
        let header = store.object(table).unwrap_or_default();
        let glyphs = covered(part(store, table, 2));
        let (count, [each_cut, once]) = match (kind, word(header, 0)) {
            (Kind::Pairs, 1) => (8, pairs_room(header, glyphs, 1, 1)),
            (Kind::Pairs, _) => (12, pairs_room(header, glyphs, 2, 3)),
            (Kind::Marks, _) => (6, marks_room(store, table, glyphs)),
        };
        Self {
            objects: objects(store),
            glyphs,
            items: word(header, count),
            each_cut,
            once,
        }
    }

    /// The same, where the new tables are entered in the lookups of a list: each lookup for pairs that names
    /// the table is written once more, with every new table at each of its listings.
    pub fn in_lookups(store: StoreRef, list: u32, table: u32) -> Self {
        let mut need = Self::of(Kind::Pairs, store, table);
        for lookup in Naming::all(store, list, table) {
            need.each_cut.data += 2 * lookup.listings;
            need.each_cut.links += lookup.listings;
            need.once.data += lookup.bytes;
            need.once.objects += 1;
            need.once.links += lookup.links;
        }
        need
    }

    /// The room for so many cuts. Of the data it may be more than is needed.
    pub fn room(&self, cuts: usize) -> Room {
        let Self { each_cut, once, .. } = self;
        Room {
            data: once.data + cuts * each_cut.data,
            objects: once.objects + cuts * each_cut.objects,
            links: once.links + cuts * each_cut.links,
        }
    }
}

/// The objects in use, or as many as there may be.
pub(crate) fn objects(store: StoreRef) -> usize {
    let [_, objects, _] = store.counts();
    (objects as usize).min(Room::MOST.objects)
}

/// For each cut and once, where tables have so many parts that are written, and so many links to
/// parts. No more item bytes are moved than the table has, and a covered glyph goes to one coverage, in
/// 2 bytes or less, and to one class definition, in 6 or less.
fn pairs_room(header: &[u8], glyphs: usize, parts: usize, links: usize) -> [Room; 2] {
    let each_cut = Room {
        data: 16 + 4 * parts,
        objects: 1 + parts,
        links,
    };
    let once = Room {
        data: 4 * parts + header.len() + 8 * glyphs,
        objects: parts,
        links: 0,
    };
    [each_cut, once]
}

/// For each cut and once. A mark goes to one coverage, in 2 bytes or less, and what the arrays have
/// behind their counts is written once, links and all.
fn marks_room(store: StoreRef, table: u32, glyphs: usize) -> [Room; 2] {
    let arrays = [8, 10];
    let bytes = arrays.map(|position| part(store, table, position).len());
    let links = arrays.map(|position| {
        let array = store.child(table, position);
        array.map_or(0, |array| store.offsets_of(array).len())
    });
    let headers = 4 + 2 + 2;
    let each_cut = Room {
        data: 12 + headers,
        objects: 4,
        links: 4,
    };
    let once = Room {
        data: headers + 2 * glyphs + bytes[0] + bytes[1],
        objects: 3,
        links: links[0] + links[1],
    };
    [each_cut, once]
}

/// The bytes of the object that is linked at a position, or none.
fn part(store: StoreRef<'_>, table: u32, position: u32) -> &[u8] {
    let part = store.child(table, position);
    part.and_then(|part| store.object(part)).unwrap_or_default()
}

/// How many glyphs a coverage has: what a list counts, or what there is up to the last range's end.
fn covered(coverage: &[u8]) -> usize {
    let count = word(coverage, 2);
    if word(coverage, 0) == 1 || count == 0 {
        return count;
    }
    let last = 6 * count - 2;
    let [start, end, before] = [last, last + 2, last + 4].map(|place| word(coverage, place));
    (before + end + 1).saturating_sub(start)
}
