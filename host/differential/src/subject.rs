//! The exported functions, as a seam.

mod compaction;

pub use compaction::{CompactSubject, Compaction};

use oracle::Store;
use splitter::Kind;
use std::fmt::Debug;

/// Something that splits PairPos tables, plans their cuts and reads pairs.
///
/// Each function returns its answer number. What it is lent may hold anything at entry.
pub trait Subject {
    /// Splits a table; the list takes the new tables.
    fn split_pairpos(&self, call: &mut Call<u32>) -> u32;

    /// Says where a table would be cut; the list takes the places. The store is only read.
    fn cut_plan(&self, call: &mut Call<u16>) -> u32;

    /// Reads the values of two glyphs, the first before the second.
    fn read_pair(&self, store: &Store, table: u32, glyphs: [u16; 2], pair: &mut Pair) -> u32;
}

/// Something that splits MarkBasePos tables, plans their cuts and reads attachments.
///
/// Each function returns its answer number. What it is lent may hold anything at entry.
pub trait MarkSubject {
    /// Splits a table; the list takes the new tables.
    fn split_markbasepos(&self, call: &mut Call<u32>) -> u32;

    /// Says where a table would be cut; the list takes the places. The store is only read.
    fn cut_plan_markbasepos(&self, call: &mut Call<u16>) -> u32;

    /// Reads the anchors of a mark glyph and of a base glyph.
    fn read_mark(
        &self,
        store: &Store,
        table: u32,
        glyphs: [u16; 2],
        attachment: &mut Attachment,
    ) -> u32;
}

/// Something that splits PairPos tables and enters the new ones in the lookups of a list.
///
/// It returns its answer number. What it is lent may hold anything at entry.
pub trait LookupSubject {
    /// Splits a table, and enters the new ones; the list takes the new tables.
    fn split_in_lookups(&self, call: &mut Call<u32>) -> u32;
}

/// A split and a cut plan, of whichever kind of table.
pub trait Splits {
    /// Splits a table.
    fn split(&self, call: &mut Call<u32>) -> u32;

    /// Says where a table would be cut.
    fn plan(&self, call: &mut Call<u16>) -> u32;
}

impl<S: Subject> Splits for S {
    fn split(&self, call: &mut Call<u32>) -> u32 {
        self.split_pairpos(call)
    }

    fn plan(&self, call: &mut Call<u16>) -> u32 {
        self.cut_plan(call)
    }
}

/// What a subject does with MarkBasePos tables.
#[derive(Clone, Copy, Debug)]
pub struct Marks<'a, S>(pub &'a S);

impl<S: MarkSubject> Splits for Marks<'_, S> {
    fn split(&self, call: &mut Call<u32>) -> u32 {
        self.0.split_markbasepos(call)
    }

    fn plan(&self, call: &mut Call<u16>) -> u32 {
        self.0.cut_plan_markbasepos(call)
    }
}

/// What a subject does with PairPos tables and the lookups that name them.
#[derive(Clone, Copy, Debug)]
pub struct InLookups<'a, S>(pub &'a S);

impl<S: Subject + LookupSubject> Splits for InLookups<'_, S> {
    fn split(&self, call: &mut Call<u32>) -> u32 {
        self.0.split_in_lookups(call)
    }

    fn plan(&self, call: &mut Call<u16>) -> u32 {
        self.0.cut_plan(call)
    }
}

/// Which functions are called.
#[derive(Clone, Copy, Debug, PartialEq, Eq)]
pub enum Functions {
    /// Those of a kind of table.
    Of(Kind),
    /// Those of pairs, but that the split enters new tables in lookups.
    InLookups,
}

impl Functions {
    /// What the table is for.
    pub fn kind(self) -> Kind {
        match self {
            Self::Of(kind) => kind,
            Self::InLookups => Kind::Pairs,
        }
    }
}

/// All that a split or a cut plan is lent.
#[derive(Clone, Debug, Default, PartialEq, Eq)]
pub struct Call<N> {
    /// Data bytes, object rows and link rows, with their counts in use.
    pub store: Store,
    /// The number of the table.
    pub table: u32,
    /// The number of the edition by which it is cut.
    pub edition: u32,
    /// The number of the lookup list, where new tables are entered in lookups; else nobody looks at it.
    pub lookup_list: u32,
    /// Zero after every call.
    pub scratch: Scratch,
    /// `new_tables` of a split, `places` of a cut plan.
    pub list: Vec<N>,
    /// `new_count` of a split, `place_count` of a cut plan.
    pub count: u32,
}

/// The scratch that a call is lent.
#[derive(Clone, Debug, Default, PartialEq, Eq)]
pub struct Scratch {
    /// Two numbers an object in use.
    pub walk: Vec<u32>,
    /// 8,192 bytes.
    pub glyph_set: Vec<u8>,
    /// One entry per covered glyph.
    pub glyphs: Vec<u16>,
    /// One entry per covered glyph.
    pub classes: Vec<u16>,
    /// One entry per pair set, class-1 row or mark class.
    pub cuts: Vec<u16>,
}

impl Scratch {
    /// Sets all of it to zero.
    pub fn clear(&mut self) {
        self.walk.fill(0);
        self.glyph_set.fill(0);
        self.glyphs.fill(0);
        self.classes.fill(0);
        self.cuts.fill(0);
    }
}

/// What a pair reading gives.
#[derive(Clone, Copy, Debug, Default, PartialEq, Eq)]
pub struct Pair {
    /// Eight numbers for the first glyph, then eight for the second.
    pub values: [i32; 16],
    /// 1 where there is a pair, else 0.
    pub found: u32,
}

/// What an attachment reading gives.
#[derive(Clone, Copy, Debug, Default, PartialEq, Eq)]
pub struct Attachment {
    /// The anchor objects of mark and base, each as its number plus one.
    pub anchors: [u32; 2],
    /// 1 where there is an attachment, else 0.
    pub found: u32,
}

impl<N: Debug + PartialEq> Call<N> {
    /// The first place in which two calls differ.
    pub fn difference(&self, other: &Self) -> Option<String> {
        let (ours, theirs) = (&self.scratch, &other.scratch);
        None.or_else(|| differ("counts", &self.store.counts, &other.store.counts))
            .or_else(|| differ("objects", &self.store.objects, &other.store.objects))
            .or_else(|| differ("links", &self.store.links, &other.store.links))
            .or_else(|| differ("data", &self.store.data, &other.store.data))
            .or_else(|| differ("walk", &ours.walk, &theirs.walk))
            .or_else(|| differ("glyph_set", &ours.glyph_set, &theirs.glyph_set))
            .or_else(|| differ("glyphs", &ours.glyphs, &theirs.glyphs))
            .or_else(|| differ("classes", &ours.classes, &theirs.classes))
            .or_else(|| differ("cuts", &ours.cuts, &theirs.cuts))
            .or_else(|| differ("list", &self.list, &other.list))
            .or_else(|| differ("count", &[self.count], &[other.count]))
    }
}

/// Where two lists differ, and in what, as far as it fits a few lines.
pub(crate) fn differ<N: Debug + PartialEq>(name: &str, ours: &[N], theirs: &[N]) -> Option<String> {
    // Nearly always, and quickly seen.
    if ours == theirs {
        return None;
    }
    if ours.len() != theirs.len() {
        let (ours, theirs) = (ours.len(), theirs.len());
        return Some(format!("{name}: length {ours}, not {theirs}"));
    }
    let place = ours.iter().zip(theirs).position(|(a, b)| a != b)?;
    let (ours, theirs) = (&ours[place], &theirs[place]);
    let difference = format!("{name}[{place}]: {ours:?}, not {theirs:?}");
    Some(difference.chars().take(300).collect())
}
