//! A PairPos table with its coverage and class definitions.

use super::{
    class_def::{self, ClassDef},
    coverage,
    cuts::Beside,
    estimate::Estimate,
    header::{Format, Header, CLASS_DEF1_POS, CLASS_DEF2_POS, COVERAGE_POS},
    objects::{Link, Objects},
    opened::Opened,
    pairs::is_sorted,
    written::{pairs, Written},
};
use std::{collections::BTreeSet, ops::Range};

/// A table that can be read.
#[derive(Clone, Debug)]
pub struct PairPos<'a> {
    /// The store that it is in.
    pub objects: Objects<'a>,
    /// Its number.
    pub table: u32,
    /// Its header.
    pub header: Header,
    /// Its coverage and class definitions.
    pub parts: Parts,
}

/// What a table's header leads to.
#[derive(Clone, Debug)]
pub struct Parts {
    /// The length of the coverage object.
    pub coverage_len: usize,
    /// The covered glyphs.
    pub glyphs: Vec<u16>,
    /// The class definitions of format 2.
    pub class_defs: Option<ClassDefs>,
}

/// Both class definitions.
#[derive(Clone, Debug)]
pub struct ClassDefs {
    /// The classes of first glyphs.
    pub first: ClassDef,
    /// The length of class definition 1.
    pub first_len: usize,
    /// The classes of second glyphs.
    pub second: ClassDef,
    /// The object that holds class definition 2.
    pub second_object: u32,
    /// Its length.
    pub second_len: usize,
}

impl Parts {
    /// Reads all parts, if each one is linked and readable.
    pub fn read(objects: &Objects, table: u32, format: Format) -> Option<Self> {
        let coverage = objects.bytes(objects.child_at(table, COVERAGE_POS)?);
        Some(Self {
            coverage_len: coverage.len(),
            glyphs: coverage::read(coverage)?,
            class_defs: match format {
                Format::One => None,
                Format::Two => Some(ClassDefs::read(objects, table)?),
            },
        })
    }
}

impl ClassDefs {
    fn read(objects: &Objects, table: u32) -> Option<Self> {
        let first = objects.child_at(table, CLASS_DEF1_POS)?;
        let second = objects.child_at(table, CLASS_DEF2_POS)?;
        Some(Self {
            first: class_def::read(objects.bytes(first))?,
            first_len: objects.bytes(first).len(),
            second: class_def::read(objects.bytes(second))?,
            second_object: second,
            second_len: objects.bytes(second).len(),
        })
    }
}

impl<'a> PairPos<'a> {
    /// The table's bytes.
    pub fn bytes(&self) -> &'a [u8] {
        self.objects.bytes(self.table)
    }

    /// The table's offsets.
    pub fn offsets(&self) -> &'a [Link] {
        self.objects.offsets_of(self.table)
    }

    /// The links of an item.
    pub fn item_links(&self, item: usize) -> &'a [Link] {
        let positions = self.item_positions(item..item + 1);
        self.objects.offsets_within(self.table, positions)
    }

    /// The pair sets that slots of format 1 lead to, each once.
    pub fn sets(&self) -> BTreeSet<u32> {
        let items = match self.header.format {
            Format::One => self.header.items,
            Format::Two => 0,
        };
        let slots = (0..items).map(|item| self.header.item_pos(item));
        slots
            .filter_map(|slot| self.objects.child_at(self.table, slot))
            .collect()
    }

    /// The positions of some items.
    pub fn item_positions(&self, items: Range<usize>) -> Range<usize> {
        self.header.item_pos(items.start)..self.header.item_pos(items.end)
    }

    /// Each covered glyph with its item: the pair set at its place, or the row of its class.
    pub fn glyph_items(&self) -> impl Iterator<Item = (u16, usize)> + '_ {
        let glyphs = self.parts.glyphs.iter().enumerate();
        glyphs.map(|(place, &glyph)| match &self.parts.class_defs {
            None => (glyph, place),
            Some(class_defs) => (glyph, class_defs.first.class_of(glyph).into()),
        })
    }
}

impl PairPos<'_> {
    /// The covered glyphs of each class that has a row.
    fn class_glyphs(&self) -> Vec<Vec<u16>> {
        let mut classes = vec![Vec::new(); self.header.items];
        for (glyph, class) in self.glyph_items() {
            if let Some(glyphs) = classes.get_mut(class) {
                glyphs.push(glyph);
            }
        }
        classes
    }
}

/// The coverage of pair sets: partial, but no longer than the coverage object is.
struct BesideSets {
    partial: usize,
    whole: usize,
}

impl Beside for BesideSets {
    fn restart(&mut self) {
        self.partial = 4;
    }

    fn add(&mut self, _item: usize) {
        self.partial += 2;
    }

    fn bytes(&self) -> usize {
        self.partial.min(self.whole)
    }
}

/// The coverage and the class definitions of rows, but for the largest of them.
struct BesideRows {
    /// Of each class.
    glyphs: Vec<Vec<u16>>,
    estimate: Estimate,
    class_def2: usize,
}

impl Beside for BesideRows {
    fn restart(&mut self) {
        self.estimate = Estimate::empty();
    }

    fn add(&mut self, item: usize) {
        self.estimate.add(item, &self.glyphs[item]);
    }

    fn bytes(&self) -> usize {
        let estimates = [self.estimate.coverage(), self.estimate.class_def()];
        but_largest([estimates[0], estimates[1], self.class_def2])
    }
}

/// The sum without the largest of three.
fn but_largest(parts: [usize; 3]) -> usize {
    parts.iter().sum::<usize>() - parts[0].max(parts[1]).max(parts[2])
}

impl Opened for PairPos<'_> {
    fn objects(&self) -> Objects<'_> {
        self.objects
    }

    fn number(&self) -> u32 {
        self.table
    }

    fn glyph_count(&self) -> usize {
        self.parts.glyphs.len()
    }

    fn item_count(&self) -> usize {
        self.header.items
    }

    fn links_are_at_slots(&self) -> bool {
        let at_slot = |link: &Link| self.header.is_slot(link[1] as usize);
        self.offsets().iter().all(at_slot)
    }

    fn sets_are_sorted(&self) -> bool {
        let size = 2 + self.header.record_size();
        let mut sets = self.sets().into_iter();
        sets.all(|set| is_sorted(self.objects.bytes(set), size))
    }

    fn is_free(&self, object: u32) -> bool {
        !self.parts().contains(&object) && !self.sets().contains(&object)
    }

    fn links_of_item(&self, item: usize) -> Vec<Link> {
        self.item_links(item).to_vec()
    }

    fn parts(&self) -> Vec<u32> {
        let count = self.header.format.offsets().len();
        let parts = self.offsets()[..count].iter();
        parts.map(|link| link[3]).collect()
    }

    fn start(&self) -> usize {
        self.header.format.min_size()
    }

    fn is_empty(&self, item: usize) -> bool {
        self.header.format == Format::One && self.item_links(item).is_empty()
    }

    fn own_cost(&self, _item: usize) -> usize {
        self.header.item_size()
    }

    fn beside(&self) -> Box<dyn Beside + '_> {
        match &self.parts.class_defs {
            None => Box::new(BesideSets {
                partial: 4,
                whole: self.parts.coverage_len,
            }),
            Some(class_defs) => Box::new(BesideRows {
                glyphs: self.class_glyphs(),
                estimate: Estimate::empty(),
                class_def2: class_defs.second_len,
            }),
        }
    }

    fn parts_together(&self) -> usize {
        let coverage = self.parts.coverage_len;
        match &self.parts.class_defs {
            None => coverage,
            Some(ClassDefs {
                first_len,
                second_len,
                ..
            }) => but_largest([coverage, *first_len, *second_len]),
        }
    }

    fn write(&self, cuts: &[usize]) -> Written {
        pairs::write(self, cuts)
    }
}
