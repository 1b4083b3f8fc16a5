//! The header of a PairPos table: where its items and its slots are.

use super::{
    numbers::{head, u16_at},
    values::ValueFormat,
};

/// The formats that are split.
#[derive(Clone, Copy, Debug, PartialEq, Eq)]
pub enum Format {
    /// A pair set for each covered glyph.
    One,
    /// A row of records for each class of the first glyph.
    Two,
}

/// What a header says. An item is the offset of a pair set, or a class-1 row.
#[derive(Clone, Debug)]
pub struct Header {
    /// Format 1 or 2.
    pub format: Format,
    /// The fields of the first and of the second glyph.
    pub value_formats: [ValueFormat; 2],
    /// How many items there are.
    pub items: usize,
    /// class2Count; 0 in format 1.
    pub columns: usize,
}

/// The offset of the coverage, in both formats.
pub const COVERAGE_POS: usize = 2;
/// The offset of class definition 1.
pub const CLASS_DEF1_POS: usize = 8;
/// The offset of class definition 2.
pub const CLASS_DEF2_POS: usize = 10;

impl Format {
    /// The format of that number.
    pub fn of(number: u16) -> Option<Self> {
        match number {
            1 => Some(Self::One),
            2 => Some(Self::Two),
            _ => None,
        }
    }

    /// Where the offsets of a header stand.
    pub fn offsets(self) -> &'static [usize] {
        match self {
            Self::One => &[COVERAGE_POS],
            Self::Two => &[COVERAGE_POS, CLASS_DEF1_POS, CLASS_DEF2_POS],
        }
    }

    /// Where the count of items stands.
    pub fn count_pos(self) -> usize {
        match self {
            Self::One => 8,
            Self::Two => 12,
        }
    }

    /// The bytes of a header.
    pub fn min_size(self) -> usize {
        match self {
            Self::One => 10,
            Self::Two => 16,
        }
    }
}

impl Header {
    /// The header of a table that is exactly as long as its header says.
    pub fn read(format: Format, bytes: &[u8]) -> Option<Self> {
        let ([_, _, value_format1, value_format2, ..], _) = head::<5>(bytes)?;
        let header = Self {
            format,
            value_formats: [ValueFormat(value_format1), ValueFormat(value_format2)],
            items: u16_at(bytes, format.count_pos())?.into(),
            columns: match format {
                Format::One => 0,
                Format::Two => u16_at(bytes, 14)?.into(),
            },
        };
        (bytes.len() == header.item_pos(header.items)).then_some(header)
    }

    /// The bytes of the two value records of a pair.
    pub fn record_size(&self) -> usize {
        self.value_formats.map(ValueFormat::size).iter().sum()
    }

    /// The bytes of an item.
    pub fn item_size(&self) -> usize {
        match self.format {
            Format::One => 2,
            Format::Two => self.record_size() * self.columns,
        }
    }

    /// Where an item starts.
    pub fn item_pos(&self, item: usize) -> usize {
        self.format.min_size() + item * self.item_size()
    }

    /// Whether a link may stand at a position.
    pub fn is_slot(&self, position: usize) -> bool {
        let item_slot = |past_header| match self.format {
            Format::One => past_header % 2 == 0,
            Format::Two => self.is_device_slot(past_header),
        };
        self.format.offsets().contains(&position)
            || position
                .checked_sub(self.format.min_size())
                .is_some_and(item_slot)
    }

    /// Whether a device stands so many bytes behind the header of format 2.
    fn is_device_slot(&self, past_header: usize) -> bool {
        let [first, second] = self.value_formats;
        let devices = first.devices().map(|position| 2 * position);
        let more = second.devices().map(|at| first.size() + 2 * at);
        let mut slots = devices.chain(more);
        slots.any(|slot| past_header % self.record_size() == slot)
    }
}
