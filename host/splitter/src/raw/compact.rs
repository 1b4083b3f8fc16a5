//! The function that compacts a store.

/// Keeps what offsets reach from a list of roots, and closes the store up.
///
/// Every entry of `roots` is a root, and one that stands twice is one root. Roots and what their offsets
/// reach are kept, in their order: their bytes, rows and numbers follow one another from 0 on with no gap.
/// Their links lead where they led, by the new numbers; an order-only link stays where both its ends do.
/// With no root nothing is kept.
///
/// Each entry of `roots` becomes the new number of its object, `counts` what is left in use, and `moved` the
/// summed length of the kept objects whose bytes start elsewhere than before. What lies between the new
/// counts and the old ones becomes zero, and is room; what lies behind the old ones stays as it was. Tables
/// that are kept say what they said, with devices and anchors under their new numbers.
///
/// The answer is 0, 1, 2 where a root is not in use, or 6 where `walk` is shorter than two numbers for each
/// object in use. Where it is a refusal `moved` becomes 0, and store and list stay as they were. `walk` is
/// zero after every call.
pub fn compact(
    data: &mut [u8],
    objects: &mut [u32],
    links: &mut [u32],
    counts: &mut [u32; 3],
    roots: &mut [u32],
    walk: &mut [u32],
    moved: &mut u32,
) -> u32 {
    extern "C" {
        fn compact(
            data: *mut u8,
            data_len: usize,
            objects: *mut u32,
            objects_len: usize,
            links: *mut u32,
            links_len: usize,
            counts: *mut u32,
            roots: *mut u32,
            roots_len: usize,
            walk: *mut u32,
            walk_len: usize,
            moved: *mut u32,
        ) -> u32;
    }
    // SAFETY: each pointer is valid for its length, and what it leads to is lent to nobody else.
    unsafe {
        compact(
            data.as_mut_ptr(),
            data.len(),
            objects.as_mut_ptr(),
            objects.len(),
            links.as_mut_ptr(),
            links.len(),
            counts.as_mut_ptr(),
            roots.as_mut_ptr(),
            roots.len(),
            walk.as_mut_ptr(),
            walk.len(),
            moved,
        )
    }
}
