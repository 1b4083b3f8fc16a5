//! What is at fault, and how it is said.

use crate::{Kind, Link, LinkKind};
use std::fmt::{self, Display, Formatter};

/// What is at fault.
#[derive(Clone, Debug, PartialEq, Eq)]
#[non_exhaustive]
pub enum Fault {
    /// A number is not what it must be.
    Number {
        /// Where it stands.
        place: Place,
        /// What stands there.
        found: u64,
        /// What should.
        wanted: Wanted,
        /// What makes it so, if it is not plain.
        because: &'static str,
    },
    /// A link is missing.
    NoLink {
        /// The object that should have it.
        parent: u32,
        /// Where.
        position: u32,
        /// What it should lead to.
        part: Part,
    },
    /// Two link rows, one behind the other, do not ascend by parent, kind, position and child, or are offsets
    /// at one position.
    Order {
        /// The two.
        rows: [LinkRow; 2],
    },
    /// A link stands where no offset is.
    NoSlot {
        /// The link.
        row: LinkRow,
        /// What its parent is.
        part: Part,
    },
    /// Links lead from the table back to it.
    WayBack {
        /// The objects on the way. The first and the last are the table.
        objects: Vec<u32>,
    },
    /// No lookup of a list names the table.
    NotListed {
        /// The list.
        list: u32,
        /// The table.
        table: u32,
    },
}

/// A link, and its place among the rows.
#[derive(Clone, Copy, Debug, PartialEq, Eq)]
pub struct LinkRow {
    /// The number of the row, from 0.
    pub row: usize,
    /// What it says.
    pub link: Link,
}

/// Where a number stands that is not what it must be.
#[derive(Clone, Copy, Debug, PartialEq, Eq)]
#[non_exhaustive]
pub enum Place {
    /// The number of the edition.
    Edition,
    /// The number of the table that was asked for.
    Table,
    /// The number of the lookup list that was asked for.
    LookupList,
    /// The number of a root, by its entry in the list of roots.
    Root(usize),
    /// A count of what is in use: `data`, `objects` or `links`.
    Count(&'static str),
    /// Where an object starts, by its row.
    Head(usize),
    /// Where an object ends, by its row.
    Tail(usize),
    /// A number of a link row: its `parent`, `position`, `width`, `child` or `kind`.
    Link {
        /// The row.
        row: LinkRow,
        /// The number.
        column: &'static str,
    },
    /// The length of an object.
    Length {
        /// The object.
        object: u32,
        /// What it is.
        part: Part,
    },
    /// A number of an object's bytes.
    Bytes {
        /// The object.
        object: u32,
        /// What it is.
        part: Part,
        /// Where in it the number stands.
        at: usize,
        /// What the number is.
        name: &'static str,
        /// Of which glyph, range or mark, if there are several.
        entry: Option<usize>,
    },
    /// How many glyphs a coverage has.
    Glyphs {
        /// The object.
        object: u32,
        /// Which coverage it is.
        part: Part,
    },
    /// How many subtables a lookup would have.
    Subtables {
        /// The lookup.
        lookup: u32,
    },
    /// The length of a scratch buffer, by its name, in numbers.
    Scratch(&'static str),
    /// The room behind what is in use of `data`, `objects` or `links`.
    Room(&'static str),
    /// The length of the list that takes the result.
    List,
}

/// What a number should be.
#[derive(Clone, Copy, Debug, PartialEq, Eq)]
#[non_exhaustive]
pub enum Wanted {
    /// This.
    Exactly(u64),
    /// This or more.
    AtLeast(u64),
    /// This or less.
    AtMost(u64),
    /// More than this.
    Above(u64),
    /// Less than this.
    Below(u64),
    /// One of these two.
    Either(u64, u64),
}

/// What an object is to a table, or to a lookup list.
#[derive(Clone, Copy, Debug, PartialEq, Eq, Hash)]
#[non_exhaustive]
pub enum Part {
    /// The table itself.
    Table,
    /// The coverage of a PairPos table.
    Coverage,
    /// A pair set.
    PairSet,
    /// Class definition 1.
    ClassDef1,
    /// Class definition 2.
    ClassDef2,
    /// The mark coverage.
    MarkCoverage,
    /// The base coverage.
    BaseCoverage,
    /// The mark array.
    MarkArray,
    /// The base array.
    BaseArray,
    /// The lookup list.
    LookupList,
    /// A lookup of the list.
    Lookup,
    /// Any object.
    Object,
}

impl Part {
    /// Where a table of a kind has the offset of it.
    pub(crate) const fn position(self, kind: Kind) -> Option<u32> {
        match (kind, self) {
            (Kind::Pairs, Self::Coverage) | (Kind::Marks, Self::MarkCoverage) => Some(2),
            (Kind::Marks, Self::BaseCoverage) => Some(4),
            (Kind::Pairs, Self::ClassDef1) | (Kind::Marks, Self::MarkArray) => Some(8),
            (Kind::Pairs, Self::ClassDef2) | (Kind::Marks, Self::BaseArray) => Some(10),
            _ => None,
        }
    }

    /// Its name.
    pub const fn name(self) -> &'static str {
        match self {
            Self::Table => "table",
            Self::Coverage => "coverage",
            Self::PairSet => "pair set",
            Self::ClassDef1 => "class definition 1",
            Self::ClassDef2 => "class definition 2",
            Self::MarkCoverage => "mark coverage",
            Self::BaseCoverage => "base coverage",
            Self::MarkArray => "mark array",
            Self::BaseArray => "base array",
            Self::LookupList => "lookup list",
            Self::Lookup => "lookup",
            Self::Object => "object",
        }
    }

    /// The name with an object's number.
    fn of(self, object: u32) -> String {
        match self {
            Self::Table | Self::Object => format!("{} {object}", self.name()),
            part => format!("{}, object {object}", part.name()),
        }
    }
}

impl Fault {
    /// A number that is not what it must be.
    pub(super) fn number(
        place: Place,
        found: usize,
        wanted: Wanted,
        because: &'static str,
    ) -> Self {
        Self::Number {
            place,
            found: found as u64,
            wanted,
            because,
        }
    }
}

impl Display for Fault {
    fn fmt(&self, f: &mut Formatter) -> fmt::Result {
        match self {
            Self::Number {
                place,
                found,
                wanted,
                because,
            } => {
                write!(f, "{place} is {found}; it must be {wanted}")?;
                match because.is_empty() {
                    true => Ok(()),
                    false => write!(f, ", {because}"),
                }
            }
            Self::NoLink {
                parent,
                position,
                part,
            } => write!(
                f,
                "table {parent} has no link at position {position}, where its {} is wanted",
                part.name()
            ),
            Self::Order { rows: [a, b] } => write!(
                f,
                "link rows {} and {} {}",
                a.row,
                b.row,
                disorder(a.link, b.link)
            ),
            Self::NoSlot { row, part } => write!(
                f,
                "link row {} of {} stands at position {}, which is no slot; it leads to object {}",
                row.row,
                part.of(row.link.parent),
                row.link.position,
                row.link.child,
            ),
            Self::WayBack { objects } => write!(
                f,
                "links lead from table {} back to it: {}",
                objects.first().copied().unwrap_or_default(),
                way(objects),
            ),
            Self::NotListed { list, table } => write!(
                f,
                "{}: no lookup of it names table {table}; one of type 2 must",
                Part::LookupList.of(*list),
            ),
        }
    }
}

/// The objects of a way: where there are many, the first ones and the last.
fn way(objects: &[u32]) -> String {
    const MOST: usize = 12;
    let words = |objects: &[u32]| {
        let words: Vec<String> = objects.iter().map(u32::to_string).collect();
        words.join(" -> ")
    };
    match objects.len() {
        0..=MOST => words(objects),
        len => format!(
            "{} -> .. {} more .. -> {}",
            words(&objects[..MOST - 3]),
            len - MOST,
            words(&objects[len - 3..])
        ),
    }
}

/// What is wrong with two links of which one stands directly before the other.
fn disorder(before: Link, behind: Link) -> String {
    if before.place() != behind.place() {
        let [before, behind] = [before, behind].map(standing);
        return format!("are out of order: {before} comes before {behind}");
    }
    match before.kind {
        LinkKind::Offset => {
            let (position, parent) = (before.position, before.parent);
            format!("both stand at position {position} of object {parent}")
        }
        _ => format!("are both {}", standing(before)),
    }
}

/// A link by what tells it from all others.
fn standing(link: Link) -> String {
    let (parent, position, child) = (link.parent, link.position, link.child);
    match link.kind {
        LinkKind::OrderOnly => format!("the order-only link of object {parent} to object {child}"),
        _ => format!("object {parent} at position {position}"),
    }
}

impl Display for Place {
    fn fmt(&self, f: &mut Formatter) -> fmt::Result {
        match self {
            Self::Edition => f.write_str("the edition"),
            Self::Table => f.write_str("the number of the table"),
            Self::LookupList => f.write_str("the number of the lookup list"),
            Self::Root(entry) => write!(f, "entry {entry} of the list of roots"),
            Self::Count(what) => write!(f, "the count of {} in use", counted(what)),
            Self::Head(row) => write!(f, "the head of object row {row}"),
            Self::Tail(row) => write!(f, "the tail of object row {row}"),
            Self::Link { row, column } => {
                let LinkRow { row, link } = row;
                write!(f, "link row {row} of object {}", link.parent)?;
                match link.kind {
                    LinkKind::OrderOnly => write!(f, ", order-only: its {column}"),
                    _ => write!(f, " at position {}: its {column}", link.position),
                }
            }
            Self::Length { object, part } => write!(f, "{}: its length", part.of(*object)),
            Self::Bytes {
                object,
                part,
                at,
                name,
                entry,
            } => {
                let part = part.of(*object);
                match entry {
                    None => write!(f, "{part}: its {name}, at byte {at},"),
                    Some(entry) => write!(f, "{part}: {name} {entry}, at byte {at},"),
                }
            }
            Self::Glyphs { object, part } => {
                write!(f, "{}: the number of its glyphs", part.of(*object))
            }
            Self::Subtables { lookup } => write!(
                f,
                "{}: the number of subtables that it would have",
                Part::Lookup.of(*lookup)
            ),
            Self::Scratch(name) => write!(f, "the scratch {name}: its length"),
            Self::Room(what) => write!(f, "the room for new {}", counted(what)),
            Self::List => f.write_str("the list for the result: its length"),
        }
    }
}

/// What is counted in a buffer.
fn counted(buffer: &str) -> &str {
    match buffer {
        "data" => "data bytes",
        rows => rows,
    }
}

impl Display for Wanted {
    fn fmt(&self, f: &mut Formatter) -> fmt::Result {
        match self {
            Self::Exactly(number) => write!(f, "{number}"),
            Self::AtLeast(number) => write!(f, "at least {number}"),
            Self::AtMost(number) => write!(f, "at most {number}"),
            Self::Above(number) => write!(f, "above {number}"),
            Self::Below(number) => write!(f, "below {number}"),
            Self::Either(one, other) => write!(f, "{one} or {other}"),
        }
    }
}
