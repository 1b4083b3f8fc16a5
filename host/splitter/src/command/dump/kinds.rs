//! What objects are to the tables that lead to them.

use splitter::{store_file::Table, Kind, Link, StoreRef};

/// What an object is.
#[derive(Clone, Copy, Debug, PartialEq, Eq)]
enum Is {
    Table(Kind),
    Coverage,
    ClassDef(u8),
    PairSet,
    MarkCoverage,
    BaseCoverage,
    MarkArray,
    BaseArray,
    Anchor,
    Device,
}

/// What each object is, by the tables that lead to it.
pub struct Kinds {
    kinds: Vec<Vec<Is>>,
    /// Where each object starts and ends.
    pub rows: Vec<[u32; 2]>,
}

impl Kinds {
    /// Goes from the tables along the offsets of what is known. An object may be several things.
    pub fn of(view: StoreRef, links: &[Vec<Link>], tables: &[Table]) -> Self {
        let objects = view.counts()[1] as usize;
        let mut kinds = Self {
            kinds: vec![Vec::new(); objects],
            rows: view.object_rows().to_vec(),
        };
        kinds.rows.resize(objects, [0; 2]);
        for &table in tables {
            kinds.add_table(view, links, table);
        }
        kinds
    }

    /// Goes from one more table.
    pub fn add_table(&mut self, view: StoreRef, links: &[Vec<Link>], table: Table) {
        let mut next = Vec::new();
        self.add(table.number, Is::Table(table.kind), &mut next);
        while let Some((object, is)) = next.pop() {
            let bytes = view.object(object).unwrap_or_default();
            let links = links.get(object as usize).into_iter().flatten();
            for link in links.filter(|link| link.is_offset()) {
                if let Some(is) = is.child(bytes, link.position) {
                    self.add(link.child, is, &mut next);
                }
            }
        }
    }

    fn add(&mut self, object: u32, is: Is, next: &mut Vec<(u32, Is)>) {
        if let Some(kinds) = self.kinds.get_mut(object as usize) {
            if !kinds.contains(&is) {
                kinds.push(is);
                next.push((object, is));
            }
        }
    }

    /// The names of all that an object is.
    pub fn names(&self, object: u32) -> Vec<&'static str> {
        let kinds = self.kinds.get(object as usize);
        kinds.into_iter().flatten().map(|is| is.name()).collect()
    }
}

impl Is {
    const fn name(self) -> &'static str {
        match self {
            Self::Table(Kind::Pairs) => "pair table",
            Self::Table(Kind::Marks) => "mark table",
            Self::Coverage => "coverage",
            Self::ClassDef(1) => "class definition 1",
            Self::ClassDef(_) => "class definition 2",
            Self::PairSet => "pair set",
            Self::MarkCoverage => "mark coverage",
            Self::BaseCoverage => "base coverage",
            Self::MarkArray => "mark array",
            Self::BaseArray => "base array",
            Self::Anchor => "anchor",
            Self::Device => "device",
        }
    }

    /// What it leads to at a position, if that is known.
    fn child(self, bytes: &[u8], position: u32) -> Option<Self> {
        match (self, bytes.first_chunk(), position) {
            (Self::Table(Kind::Pairs), Some([0, 1 | 2]), 2) => Some(Self::Coverage),
            (Self::Table(Kind::Pairs), Some([0, 1]), 10..) => Some(Self::PairSet),
            (Self::Table(Kind::Pairs), Some([0, 2]), 8) => Some(Self::ClassDef(1)),
            (Self::Table(Kind::Pairs), Some([0, 2]), 10) => Some(Self::ClassDef(2)),
            (Self::Table(Kind::Pairs), Some([0, 2]), 16..) => Some(Self::Device),
            (Self::Table(Kind::Marks), Some([0, 1]), 2) => Some(Self::MarkCoverage),
            (Self::Table(Kind::Marks), Some([0, 1]), 4) => Some(Self::BaseCoverage),
            (Self::Table(Kind::Marks), Some([0, 1]), 8) => Some(Self::MarkArray),
            (Self::Table(Kind::Marks), Some([0, 1]), 10) => Some(Self::BaseArray),
            (Self::MarkArray | Self::BaseArray, _, 2..) => Some(Self::Anchor),
            (Self::PairSet, _, 2..) => Some(Self::Device),
            (Self::Anchor, Some([0, 3]), 6 | 8) => Some(Self::Device),
            _ => None,
        }
    }
}
