//! The pair reading.

use super::{
    header::Format,
    numbers::{head, u16_at},
    table::PairPos,
    values::{is_device, ValueFormat},
};
use crate::Pair;

/// Where the values of a pair stand: in which object, and from which byte on.
type Spot = (u32, usize);

/// What a table says of two glyphs, the first before the second.
pub fn read(pairpos: &PairPos, glyphs: [u16; 2]) -> Pair {
    let spot = match pairpos.header.format {
        Format::One => spot_in_set(pairpos, glyphs),
        Format::Two => spot_in_row(pairpos, glyphs),
    };
    spot.map_or(Pair::default(), |spot| pair_at(pairpos, spot))
}

/// Whether a pair set is exactly a count and so many records of a size, and their second glyphs ascend.
pub fn is_sorted(set: &[u8], size: usize) -> bool {
    let Some(([count], records)) = head(set) else {
        return false;
    };
    let second = |record: &[u8]| u16_at(record, 0);
    records.len() == usize::from(count) * size
        && records
            .chunks(size)
            .is_sorted_by(|before, after| second(before) < second(after))
}

/// The first record with the second glyph in the pair set of the first.
fn spot_in_set(pairpos: &PairPos, [first, second]: [u16; 2]) -> Option<Spot> {
    let place = pairpos.parts.glyphs.binary_search(&first).ok()?;
    if place >= pairpos.header.items {
        return None;
    }
    let slot = pairpos.header.item_pos(place);
    let set = pairpos.objects.child_at(pairpos.table, slot)?;
    let bytes = pairpos.objects.bytes(set);
    let size = 2 + pairpos.header.record_size();
    let count = u16_at(bytes, 0)? as usize;
    let records = bytes[2..].get(..count * size)?;
    let record = records
        .chunks_exact(size)
        .position(|record| u16_at(record, 0) == Some(second))?;
    Some((set, 4 + record * size))
}

/// The record at the row of the first glyph's class and the column of the second's.
fn spot_in_row(pairpos: &PairPos, [first, second]: [u16; 2]) -> Option<Spot> {
    pairpos.parts.glyphs.binary_search(&first).ok()?;
    let class_defs = pairpos.parts.class_defs.as_ref()?;
    let row = class_defs.first.class_of(first) as usize;
    let column = class_defs.second.class_of(second) as usize;
    let header = &pairpos.header;
    if row >= header.items || column >= header.columns {
        return None;
    }
    let record = row * header.columns + column;
    Some((pairpos.table, 16 + record * header.record_size()))
}

fn pair_at(pairpos: &PairPos, (object, at): Spot) -> Pair {
    let [format1, format2] = pairpos.header.value_formats;
    let mut values = [0; 16];
    let (first, second) = values.split_at_mut(8);
    read_values(pairpos, (object, at), format1, first);
    read_values(pairpos, (object, at + format1.size()), format2, second);
    Pair { values, found: 1 }
}

/// Signed field values; for a device the linked object's number plus one. Absent fields stay 0.
fn read_values(pairpos: &PairPos, (object, at): Spot, format: ValueFormat, values: &mut [i32]) {
    for (place, bit) in format.fields().enumerate() {
        let position = at + 2 * place;
        let value = if is_device(bit) {
            let device = pairpos.objects.child_at(object, position);
            device.map_or(0, |device| device as i32 + 1)
        } else {
            let field = u16_at(pairpos.objects.bytes(object), position);
            field.map_or(0, |field| (field as i16).into())
        };
        values[bit as usize] = value;
    }
}
