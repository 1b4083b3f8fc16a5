//! The shapes that the exported functions have: how slices and arrays are passed to them.

/// A function that splits tables of one kind; it may be told another object before the table.
macro_rules! split_function {
    ($(#[$about:meta])* $name:ident $(, $other:ident)?) => {
        $(#[$about])*
        #[expect(clippy::too_many_arguments)]
        pub fn $name(
            data: &mut [u8],
            objects: &mut [u32],
            links: &mut [u32],
            counts: &mut [u32; 3],
            $($other: u32,)?
            table: u32,
            edition: u32,
            walk: &mut [u32],
            glyph_set: &mut [u8],
            glyphs: &mut [u16],
            classes: &mut [u16],
            cuts: &mut [u16],
            new_tables: &mut [u32],
            new_count: &mut u32,
        ) -> u32 {
            extern "C" {
                fn $name(
                    data: *mut u8,
                    data_len: usize,
                    objects: *mut u32,
                    objects_len: usize,
                    links: *mut u32,
                    links_len: usize,
                    counts: *mut u32,
                    $($other: u32,)?
                    table: u32,
                    edition: u32,
                    walk: *mut u32,
                    walk_len: usize,
                    glyph_set: *mut u8,
                    glyph_set_len: usize,
                    glyphs: *mut u16,
                    glyphs_len: usize,
                    classes: *mut u16,
                    classes_len: usize,
                    cuts: *mut u16,
                    cuts_len: usize,
                    new_tables: *mut u32,
                    new_tables_len: usize,
                    new_count: *mut u32,
                ) -> u32;
            }
            // SAFETY: each pointer is valid for its length, and what it leads to is lent to nobody else.
            unsafe {
                $name(
                    data.as_mut_ptr(),
                    data.len(),
                    objects.as_mut_ptr(),
                    objects.len(),
                    links.as_mut_ptr(),
                    links.len(),
                    counts.as_mut_ptr(),
                    $($other,)?
                    table,
                    edition,
                    walk.as_mut_ptr(),
                    walk.len(),
                    glyph_set.as_mut_ptr(),
                    glyph_set.len(),
                    glyphs.as_mut_ptr(),
                    glyphs.len(),
                    classes.as_mut_ptr(),
                    classes.len(),
                    cuts.as_mut_ptr(),
                    cuts.len(),
                    new_tables.as_mut_ptr(),
                    new_tables.len(),
                    new_count,
                )
            }
        }
    };
}

/// A function that says where tables of one kind would be cut.
macro_rules! plan_function {
    ($(#[$about:meta])* $name:ident) => {
        $(#[$about])*
        #[expect(clippy::too_many_arguments)]
        pub fn $name(
            data: &[u8],
            objects: &[u32],
            links: &[u32],
            counts: &[u32; 3],
            table: u32,
            edition: u32,
            walk: &mut [u32],
            glyph_set: &mut [u8],
            glyphs: &mut [u16],
            classes: &mut [u16],
            cuts: &mut [u16],
            places: &mut [u16],
            place_count: &mut u32,
        ) -> u32 {
            extern "C" {
                fn $name(
                    data: *const u8,
                    data_len: usize,
                    objects: *const u32,
                    objects_len: usize,
                    links: *const u32,
                    links_len: usize,
                    counts: *const u32,
                    table: u32,
                    edition: u32,
                    walk: *mut u32,
                    walk_len: usize,
                    glyph_set: *mut u8,
                    glyph_set_len: usize,
                    glyphs: *mut u16,
                    glyphs_len: usize,
                    classes: *mut u16,
                    classes_len: usize,
                    cuts: *mut u16,
                    cuts_len: usize,
                    places: *mut u16,
                    places_len: usize,
                    place_count: *mut u32,
                ) -> u32;
            }
            // SAFETY: each pointer is valid for its length, and what is written is lent to nobody else.
            unsafe {
                $name(
                    data.as_ptr(),
                    data.len(),
                    objects.as_ptr(),
                    objects.len(),
                    links.as_ptr(),
                    links.len(),
                    counts.as_ptr(),
                    table,
                    edition,
                    walk.as_mut_ptr(),
                    walk.len(),
                    glyph_set.as_mut_ptr(),
                    glyph_set.len(),
                    glyphs.as_mut_ptr(),
                    glyphs.len(),
                    classes.as_mut_ptr(),
                    classes.len(),
                    cuts.as_mut_ptr(),
                    cuts.len(),
                    places.as_mut_ptr(),
                    places.len(),
                    place_count,
                )
            }
        }
    };
}

/// A function that reads what a table says of two glyphs, into so many numbers.
macro_rules! read_function {
    ($(#[$about:meta])* $name:ident, $first:ident, $second:ident, $numbers:ident: [$number:ty; $count:expr]) => {
        $(#[$about])*
        #[expect(clippy::too_many_arguments)]
        pub fn $name(
            data: &[u8],
            objects: &[u32],
            links: &[u32],
            counts: &[u32; 3],
            table: u32,
            $first: u16,
            $second: u16,
            $numbers: &mut [$number; $count],
            found: &mut u32,
        ) -> u32 {
            extern "C" {
                fn $name(
                    data: *const u8,
                    data_len: usize,
                    objects: *const u32,
                    objects_len: usize,
                    links: *const u32,
                    links_len: usize,
                    counts: *const u32,
                    table: u32,
                    $first: u16,
                    $second: u16,
                    $numbers: *mut $number,
                    found: *mut u32,
                ) -> u32;
            }
            // SAFETY: each pointer is valid for its length, and what is written is lent to nobody else.
            unsafe {
                $name(
                    data.as_ptr(),
                    data.len(),
                    objects.as_ptr(),
                    objects.len(),
                    links.as_ptr(),
                    links.len(),
                    counts.as_ptr(),
                    table,
                    $first,
                    $second,
                    $numbers.as_mut_ptr(),
                    found,
                )
            }
        }
    };
}

pub(super) use {plan_function, read_function, split_function};
