//! Value formats.

/// Which fields a value record has.
#[derive(Clone, Copy, Debug, PartialEq, Eq)]
pub struct ValueFormat(u16);

impl ValueFormat {
    /// Horizontal shift.
    pub const X_PLACEMENT: Self = Self(0x0001);
    /// Vertical shift.
    pub const Y_PLACEMENT: Self = Self(0x0002);
    /// Change of the horizontal advance.
    pub const X_ADVANCE: Self = Self(0x0004);
    /// Change of the vertical advance.
    pub const Y_ADVANCE: Self = Self(0x0008);
    /// Device table of the horizontal shift.
    pub const X_PLACEMENT_DEVICE: Self = Self(0x0010);
    /// Device table of the vertical shift.
    pub const Y_PLACEMENT_DEVICE: Self = Self(0x0020);
    /// Device table of the horizontal advance.
    pub const X_ADVANCE_DEVICE: Self = Self(0x0040);
    /// Device table of the vertical advance.
    pub const Y_ADVANCE_DEVICE: Self = Self(0x0080);

    /// The format of these bits; those above the low eight name no field.
    pub fn from_bits_truncate(bits: u16) -> Self {
        Self(bits & 0x00FF)
    }

    /// Whether all fields of `other` are among these.
    pub fn contains(self, other: Self) -> bool {
        self.0 & other.0 == other.0
    }
}
