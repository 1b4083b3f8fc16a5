//! Changes to a store's rows and bytes, which leave what is not in use as it is.

use oracle::{link, Store};

/// An object's bytes.
pub fn bytes(store: &Store, object: u32) -> &[u8] {
    let [head, tail] = store.objects_in_use()[object as usize];
    &store.data[head as usize..tail as usize]
}

/// Where an object starts, or would start.
pub fn head(store: &Store, object: u32) -> usize {
    let row = store.objects_in_use().get(object as usize);
    row.map_or(store.data.len(), |row| row[0] as usize)
}

/// The object that an offset leads to.
pub fn child_at(store: &Store, parent: u32, position: u32) -> Option<u32> {
    let links = store.links_in_use();
    let place = links.partition_point(|row| link::rank(row) < [parent, link::OFFSET, position, 0]);
    let row = links.get(place)?;
    is_at(row, parent, position).then_some(row[3])
}

/// Writes a number at a position of an object.
pub fn set_word(store: &mut Store, object: u32, position: usize, word: u16) {
    let at = head(store, object) + position;
    store.data[at..at + 2].copy_from_slice(&word.to_be_bytes());
}

/// Gives an object other bytes; those behind it move. Offsets that no longer fit go.
pub fn replace(store: &mut Store, object: u32, bytes: &[u8]) {
    let place = 2 * object as usize;
    let [head, tail] = [store.objects[place], store.objects[place + 1]];
    let old = head as usize..tail as usize;
    store.data.splice(old, bytes.iter().copied());
    let in_use = 2 * store.counts[1] as usize;
    let moved = |old: u32| old - tail + head + bytes.len() as u32;
    for number in &mut store.objects[place + 1..in_use] {
        *number = moved(*number);
    }
    store.counts[0] = moved(store.counts[0]);
    remove_links(store, |row| {
        link::is_offset(row) && row[0] == object && row[1] as usize + 2 > bytes.len()
    });
}

/// Removes some links.
pub fn remove_links(store: &mut Store, goes: impl Fn(&link::Row) -> bool) {
    let in_use = store.links_in_use();
    let kept: Vec<_> = in_use.iter().filter(|row| !goes(row)).copied().collect();
    let end = link::NUMBERS * store.counts[2] as usize;
    store.counts[2] = kept.len() as u32;
    store.links.splice(..end, kept.into_flattened());
}

/// Adds an offset, or leads the one that is there to another object.
pub fn link(store: &mut Store, parent: u32, position: u32, child: u32) {
    unlink(store, parent, position);
    add_row(store, link::offset(parent, position, child));
}

/// Removes the offset at a position, if there is one.
pub fn unlink(store: &mut Store, parent: u32, position: u32) {
    remove_links(store, |row| is_at(row, parent, position));
}

/// Adds an order-only link, if it is not there yet.
pub fn order(store: &mut Store, parent: u32, child: u32) {
    let row = link::order_only(parent, child);
    if !store.links_in_use().contains(&row) {
        add_row(store, row);
    }
}

/// Adds a row in its place.
pub fn add_row(store: &mut Store, row: link::Row) {
    let rank = link::rank(&row);
    let rows = store.links_in_use();
    let place = link::NUMBERS * rows.partition_point(|row| link::rank(row) < rank);
    store.links.splice(place..place, row);
    store.counts[2] += 1;
}

/// Whether a row is the offset of a parent at a position.
fn is_at(row: &link::Row, parent: u32, position: u32) -> bool {
    link::is_offset(row) && row[..2] == [parent, position]
}

/// Adds an object behind all others.
pub fn add(store: &mut Store, bytes: &[u8]) -> u32 {
    let [head, object, _] = store.counts;
    let tail = head + bytes.len() as u32;
    let (at, row) = (head as usize, 2 * object as usize);
    store.data.splice(at..at, bytes.iter().copied());
    store.objects.splice(row..row, [head, tail]);
    store.counts[0] = tail;
    store.counts[1] += 1;
    object
}
