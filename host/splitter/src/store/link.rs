//! Links, and the rows that they are in a store.

/// What a link is.
#[derive(Clone, Copy, Debug, PartialEq, Eq, PartialOrd, Ord, Hash)]
pub enum LinkKind {
    /// The two bytes of the parent at the position are the offset of the child.
    Offset,
    /// It only says in which order the two are placed. It stands at no position, and nothing follows it.
    OrderOnly,
    /// None of these: only a store that is not sound has such a link.
    Unknown(u32),
}

impl LinkKind {
    /// The number by which the rows of a store have it.
    pub const fn number(self) -> u32 {
        match self {
            Self::Offset => 0,
            Self::OrderOnly => 1,
            Self::Unknown(number) => number,
        }
    }

    /// The kind that has this number.
    ///
    /// ```
    /// use splitter::LinkKind;
    ///
    /// assert_eq!(LinkKind::from_number(1), LinkKind::OrderOnly);
    /// assert_eq!(LinkKind::from_number(2), LinkKind::Unknown(2));
    /// ```
    pub const fn from_number(number: u32) -> Self {
        match number {
            0 => Self::Offset,
            1 => Self::OrderOnly,
            number => Self::Unknown(number),
        }
    }

    /// How many bytes of the parent a link of this kind is.
    pub(crate) const fn width(self) -> u32 {
        match self {
            Self::Offset => 2,
            _ => 0,
        }
    }
}

/// A link from one object to another.
///
/// Links are in the order in which a store has their rows: by parent, kind, position and child. So an object's
/// offsets come before its order-only links.
#[derive(Clone, Copy, Debug, PartialEq, Eq, PartialOrd, Ord, Hash)]
pub struct Link {
    /// The object that has the link.
    pub parent: u32,
    /// What the link is.
    pub kind: LinkKind,
    /// Where in the parent the two bytes of an offset stand; 0 of an order-only link.
    pub position: u32,
    /// The object that the link leads to.
    pub child: u32,
}

impl Link {
    /// How many numbers a link's row has: parent, position, width, child and kind.
    pub const NUMBERS: usize = 5;

    /// An offset at a position of the parent.
    pub const fn offset(parent: u32, position: u32, child: u32) -> Self {
        Self {
            parent,
            kind: LinkKind::Offset,
            position,
            child,
        }
    }

    /// A link that only says in which order the two are placed.
    pub const fn order_only(parent: u32, child: u32) -> Self {
        Self {
            parent,
            kind: LinkKind::OrderOnly,
            position: 0,
            child,
        }
    }

    /// Whether it is an offset. All that reads, measures or splits tables follows offsets alone.
    pub const fn is_offset(self) -> bool {
        matches!(self.kind, LinkKind::Offset)
    }

    pub(crate) const fn row(self) -> [u32; Self::NUMBERS] {
        [
            self.parent,
            self.position,
            self.kind.width(),
            self.child,
            self.kind.number(),
        ]
    }

    pub(crate) const fn of_row(&[parent, position, _, child, kind]: &[u32; Self::NUMBERS]) -> Self {
        Self {
            parent,
            kind: LinkKind::from_number(kind),
            position,
            child,
        }
    }

    /// Where it stands: the links of a sound store ascend by it, so each place has one at most. An offset
    /// stands at its position, whatever it leads to.
    pub(crate) const fn place(self) -> (u32, LinkKind, u32) {
        let within = match self.kind {
            LinkKind::Offset => self.position,
            _ => self.child,
        };
        (self.parent, self.kind, within)
    }
}
