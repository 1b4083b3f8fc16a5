//! Value formats: each of the low eight bits is a field of two bytes, lowest first.

/// Which fields a value record has. Higher bits are ignored.
#[derive(Clone, Copy, Debug, PartialEq, Eq)]
pub struct ValueFormat(pub u16);

/// X and Y placement, X and Y advance; the four devices stand above them.
const FIRST_DEVICE: u32 = 4;

impl ValueFormat {
    /// How many fields there are.
    pub fn field_count(self) -> usize {
        self.fields().count()
    }

    /// The bytes of a value record.
    pub fn size(self) -> usize {
        2 * self.field_count()
    }

    /// The bits that are set, lowest first. A field's position is its place among them.
    pub fn fields(self) -> impl Iterator<Item = u32> {
        (0..8).filter(move |&bit| self.0 >> bit & 1 == 1)
    }

    /// The positions of the devices.
    pub fn devices(self) -> impl Iterator<Item = usize> {
        let fields = self.fields().enumerate();
        fields.filter_map(|(position, bit)| is_device(bit).then_some(position))
    }
}

/// Whether a bit names a device.
pub fn is_device(bit: u32) -> bool {
    bit >= FIRST_DEVICE
}
