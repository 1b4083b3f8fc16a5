//! The answer numbers: a call is refused by the first that applies.

use super::{
    cuts::Edition,
    header::{Format, Header},
    lookups::{self, entered, Lookup},
    marks::MarkBasePos,
    numbers::u16_at,
    objects::Objects,
    opened::Opened,
    reach::reaches_itself,
    table::{PairPos, Parts},
    written::Written,
};
use crate::{Call, Scratch};
use oracle::Store;

/// Why a call is refused, in the order in which it is asked.
#[derive(Clone, Copy, Debug, PartialEq, Eq)]
pub enum Refusal {
    /// The edition is not 1 or 2.
    BadEdition = 12,
    /// The store is not sound.
    Unsound = 1,
    /// The table's number is not in use, or the lookup list's or a root's is not.
    NoTable = 2,
    /// The lookup list or a lookup of it is not as long as it says or has a link at no slot, or no lookup
    /// of pairs names the table.
    BadList = 9,
    /// The table is not as long as it says.
    BadTable = 3,
    /// Coverage, a class definition or an array is not linked, or unreadable.
    BadParts = 4,
    /// Fewer glyphs are covered than there are pair sets, or marks.
    FewGlyphs = 5,
    /// A scratch is too short.
    ShortScratch = 6,
    /// A link of the table, or of an array, stands at no slot, or the table can be reached from itself.
    BadLinks = 7,
    /// A linked pair set is not as long as it says, or its second glyphs do not ascend.
    UnsortedSets = 11,
    /// A lookup would have more subtables than it can count.
    ManySubtables = 10,
    /// There is no room for what a split adds.
    NoRoom = 8,
}

/// A table by checks 1 to 5; nothing where it has another format.
pub type Opening<T> = Result<Option<T>, Refusal>;

/// A PairPos table.
pub fn open(store: &Store, table: u32) -> Opening<PairPos<'_>> {
    let (objects, bytes, format) = start(store, table)?;
    let Some(format) = Format::of(format) else {
        return Ok(None);
    };
    let header = Header::read(format, bytes).ok_or(Refusal::BadTable)?;
    let parts = Parts::read(&objects, table, format).ok_or(Refusal::BadParts)?;
    if format == Format::One && parts.glyphs.len() < header.items {
        return Err(Refusal::FewGlyphs);
    }
    Ok(Some(PairPos {
        objects,
        table,
        header,
        parts,
    }))
}

/// A PairPos table for the pair reading, which is of sorted sets only.
pub fn open_to_read(store: &Store, table: u32) -> Opening<PairPos<'_>> {
    match open(store, table)? {
        Some(pairpos) if !pairpos.sets_are_sorted() => Err(Refusal::UnsortedSets),
        opened => Ok(opened),
    }
}

/// A MarkBasePos table.
pub fn open_marks(store: &Store, table: u32) -> Opening<MarkBasePos<'_>> {
    let (objects, bytes, format) = start(store, table)?;
    if format != 1 {
        return Ok(None);
    }
    if bytes.len() != MarkBasePos::LEN {
        return Err(Refusal::BadTable);
    }
    let marks = MarkBasePos::read(objects, table).ok_or(Refusal::BadParts)?;
    if marks.mark_glyphs.len() < marks.mark_classes.len() {
        return Err(Refusal::FewGlyphs);
    }
    Ok(Some(marks))
}

/// The lookups of a list that are to list a table's new ones too, by checks 1, 2 and 9.
pub fn open_lookups(store: &Store, list: u32, table: u32) -> Result<Vec<Lookup>, Refusal> {
    let objects = objects(store, table)?;
    if list as usize >= objects.count() {
        return Err(Refusal::NoTable);
    }
    let mut lookups = lookups::read(objects, list).ok_or(Refusal::BadList)?;
    lookups.retain(|lookup| lookup.is_of_pairs() && lookup.names(table));
    match lookups.is_empty() {
        true => Err(Refusal::BadList),
        false => Ok(lookups),
    }
}

/// The objects of a sound store, in which a table is in use.
fn objects(store: &Store, table: u32) -> Result<Objects<'_>, Refusal> {
    let objects = Objects::of(store).ok_or(Refusal::Unsound)?;
    match (table as usize) < objects.count() {
        true => Ok(objects),
        false => Err(Refusal::NoTable),
    }
}

/// The store's objects, the table's bytes and its format.
fn start(store: &Store, table: u32) -> Result<(Objects<'_>, &[u8], u16), Refusal> {
    let objects = objects(store, table)?;
    let bytes = objects.bytes(table);
    let format = u16_at(bytes, 0).ok_or(Refusal::BadTable)?;
    Ok((objects, bytes, format))
}

/// The edition of a call, by check 12.
fn edition<N>(call: &Call<N>) -> Result<Edition, Refusal> {
    Edition::of(call.edition).ok_or(Refusal::BadEdition)
}

/// A table and its cut places by checks 1 to 7 and 11.
fn cut<T: Opened>(
    opening: Opening<T>,
    edition: Edition,
    scratch: &Scratch,
) -> Opening<(T, Vec<usize>)> {
    let Some(table) = opening? else {
        return Ok(None);
    };
    if !scratch_suffices(&table, scratch) {
        return Err(Refusal::ShortScratch);
    }
    if !table.links_are_at_slots() || reaches_itself(table.objects(), table.number()) {
        return Err(Refusal::BadLinks);
    }
    if !table.sets_are_sorted() {
        return Err(Refusal::UnsortedSets);
    }
    let cuts = table.cut_places(edition);
    Ok(Some((table, cuts)))
}

fn scratch_suffices(table: &impl Opened, scratch: &Scratch) -> bool {
    scratch.walk.len() >= 2 * table.objects().count()
        && scratch.glyph_set.len() >= 8_192
        && scratch.glyphs.len() >= table.glyph_count()
        && scratch.classes.len() >= table.glyph_count()
        && scratch.cuts.len() >= table.item_count()
}

/// What a split writes of the table that is opened so; nothing where there is nothing to split.
pub fn split<'a, T: Opened>(
    call: &'a Call<u32>,
    open: impl FnOnce(&'a Store, u32) -> Opening<T>,
) -> Opening<Written> {
    let edition = edition(call)?;
    let opening = open(&call.store, call.table);
    let Some((table, cuts)) = cut(opening, edition, &call.scratch)? else {
        return Ok(None);
    };
    if cuts.is_empty() {
        return Ok(None);
    }
    within_room(table.write(&cuts), call)
}

/// What a split writes that enters its new tables in the lookups of a list; nothing where there is nothing
/// to split.
pub fn split_in_lookups(call: &Call<u32>) -> Opening<Written> {
    let edition = edition(call)?;
    let lookups = open_lookups(&call.store, call.lookup_list, call.table)?;
    let opening = open(&call.store, call.table);
    let Some((pairpos, cuts)) = cut(opening, edition, &call.scratch)? else {
        return Ok(None);
    };
    if cuts.is_empty() {
        return Ok(None);
    }
    let entered = entered::enter(&pairpos, pairpos.write(&cuts), lookups);
    let written = entered.ok_or(Refusal::ManySubtables)?;
    within_room(written, call)
}

/// What is written, if there is room for it, and for its new tables in the list.
fn within_room(written: Written, call: &Call<u32>) -> Opening<Written> {
    match written.fits(&call.store) && written.new_tables.len() <= call.list.len() {
        true => Ok(Some(written)),
        false => Err(Refusal::NoRoom),
    }
}

/// The places of a cut plan of the table that is opened so; nothing where it has another format.
pub fn plan<'a, T: Opened>(
    call: &'a Call<u16>,
    open: impl FnOnce(&'a Store, u32) -> Opening<T>,
) -> Opening<Vec<u16>> {
    let edition = edition(call)?;
    let opening = open(&call.store, call.table);
    let Some((_, cuts)) = cut(opening, edition, &call.scratch)? else {
        return Ok(None);
    };
    if call.list.len() < cuts.len() {
        return Err(Refusal::NoRoom);
    }
    Ok(Some(cuts.iter().map(|&cut| cut as u16).collect()))
}
