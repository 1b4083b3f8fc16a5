//! When a store is sound, and how much room it has.

use oracle::{link, Store};

/// The most that a store may have in use: data bytes, objects, links.
pub const MAXIMA: [usize; 3] = [16_777_216, 65_536, 262_144];

/// The smaller of lent length and maximum, for each of data, objects and links.
///
/// A lent length counts whole rows.
pub fn room(store: &Store) -> [usize; 3] {
    let lent = [
        store.data.len(),
        store.objects.len() / 2,
        store.links.len() / link::NUMBERS,
    ];
    std::array::from_fn(|i| lent[i].min(MAXIMA[i]))
}

/// Whether all that is in use fits together.
pub fn sound(store: &Store) -> bool {
    counts_fit(store) && objects_fit(store) && links_fit(store)
}

fn counts_fit(store: &Store) -> bool {
    let in_use = store.counts.map(|count| count as usize);
    in_use
        .iter()
        .zip(room(store))
        .all(|(&used, room)| used <= room)
}

/// Each head at or after the tail before it, head ≤ tail ≤ data in use.
fn objects_fit(store: &Store) -> bool {
    let mut end = 0;
    store.objects_in_use().iter().all(|&[head, tail]| {
        let fits = end <= head && head <= tail && tail <= store.counts[0];
        end = tail;
        fits
    })
}

/// Between objects in use, each of the shape of its kind, strictly ascending by parent, kind, position and
/// child, and no two offsets of one parent at one position.
fn links_fit(store: &Store) -> bool {
    let objects = store.objects_in_use();
    let links = store.links_in_use();
    let fits = |link: &link::Row| {
        let [parent, _, _, child, _] = *link;
        let Some([head, tail]) = objects.get(parent as usize) else {
            return false;
        };
        (child as usize) < objects.len() && has_shape(link, (tail - head) as usize)
    };
    links.iter().all(fits)
        && links.is_sorted_by(|a, b| link::rank(a) < link::rank(b) && !are_at_one_position(a, b))
}

/// Kind 0: width 2, position + 2 within the parent, which has so many bytes. Kind 1: position 0, width 0.
fn has_shape(&[_, position, width, _, kind]: &link::Row, len: usize) -> bool {
    match kind {
        link::OFFSET => width == 2 && position as usize + 2 <= len,
        link::ORDER_ONLY => position == 0 && width == 0,
        _ => false,
    }
}

fn are_at_one_position(a: &link::Row, b: &link::Row) -> bool {
    link::is_offset(a) && link::is_offset(b) && a[..2] == b[..2]
}
