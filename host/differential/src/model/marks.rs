//! MarkBasePos tables: mark glyphs attached to base glyphs, cut by mark class.

pub mod attachments;
mod written;

use super::{
    coverage,
    cuts::Beside,
    numbers::{head, u16_at, words},
    objects::{Link, Objects},
    opened::Opened,
    written::Written,
};

/// The offset of the mark coverage.
pub const MARK_COVERAGE_POS: usize = 2;
/// The offset of the base coverage.
pub const BASE_COVERAGE_POS: usize = 4;
/// The count of mark classes.
pub const CLASS_COUNT_POS: usize = 6;
/// The offset of the mark array.
pub const MARK_ARRAY_POS: usize = 8;
/// The offset of the base array.
pub const BASE_ARRAY_POS: usize = 10;

/// Where the offsets of a table stand.
pub const OFFSETS: [usize; 4] = [
    MARK_COVERAGE_POS,
    BASE_COVERAGE_POS,
    MARK_ARRAY_POS,
    BASE_ARRAY_POS,
];

/// A table that can be read.
#[derive(Clone, Debug)]
pub struct MarkBasePos<'a> {
    /// The store that it is in.
    pub objects: Objects<'a>,
    /// Its number.
    pub table: u32,
    /// How many mark classes there are.
    pub class_count: usize,
    /// The glyphs of the mark coverage.
    pub mark_glyphs: Vec<u16>,
    /// The glyphs of the base coverage.
    pub base_glyphs: Vec<u16>,
    /// The object that holds the base coverage.
    pub base_coverage: u32,
    /// The object that holds the mark array.
    pub mark_array: u32,
    /// The class of each mark.
    pub mark_classes: Vec<u16>,
    /// The object that holds the base array.
    pub base_array: u32,
    /// How many bases there are.
    pub base_count: usize,
}

impl<'a> MarkBasePos<'a> {
    /// The length of every table.
    pub const LEN: usize = 12;

    /// A table of that length, if its coverages and arrays are linked and readable.
    pub fn read(objects: Objects<'a>, table: u32) -> Option<Self> {
        let class_count = u16_at(objects.bytes(table), CLASS_COUNT_POS)?.into();
        let [mark_coverage, base_coverage, mark_array, base_array] =
            OFFSETS.map(|position| objects.child_at(table, position));
        let (base_coverage, mark_array, base_array) = (base_coverage?, mark_array?, base_array?);
        Some(Self {
            objects,
            table,
            class_count,
            mark_glyphs: coverage::read(objects.bytes(mark_coverage?))?,
            base_glyphs: coverage::read(objects.bytes(base_coverage))?,
            base_coverage,
            mark_array,
            mark_classes: mark_classes(objects.bytes(mark_array), class_count)?,
            base_array,
            base_count: base_count(objects.bytes(base_array), class_count)?,
        })
    }

    /// How many marks a class has.
    fn mark_count(&self, class: usize) -> usize {
        let classes = self.mark_classes.iter();
        classes
            .filter(|&&other| usize::from(other) == class)
            .count()
    }

    /// The links of the mark array that stand at slots, each with its mark.
    fn mark_links(&self) -> impl Iterator<Item = (usize, Link)> + 'a {
        let links = self.objects.offsets_of(self.mark_array).iter();
        links.filter_map(|&link| Some((mark_at(link[1] as usize)?, link)))
    }

    /// The links of the base array that stand at slots, each with its base and its class.
    fn base_links(&self) -> impl Iterator<Item = ([usize; 2], Link)> + 'a {
        let class_count = self.class_count;
        let links = self.objects.offsets_of(self.base_array).iter();
        links.filter_map(move |&link| {
            let slot = base_slot_at(link[1] as usize)?;
            Some(([slot / class_count, slot % class_count], link))
        })
    }
}

/// The classes of exactly as many marks as are counted, all below the class count.
fn mark_classes(bytes: &[u8], class_count: usize) -> Option<Vec<u16>> {
    let ([count], records) = head(bytes)?;
    let classes: Vec<u16> = words(records).step_by(2).collect();
    let is_exact = records.len() == 4 * usize::from(count);
    let are_classes = classes
        .iter()
        .all(|&class| usize::from(class) < class_count);
    (is_exact && are_classes).then_some(classes)
}

/// How many bases there are, where their slots are exactly the bytes behind the count.
fn base_count(bytes: &[u8], class_count: usize) -> Option<usize> {
    let ([count], slots) = head(bytes)?;
    let count = usize::from(count);
    (slots.len() == 2 * count * class_count).then_some(count)
}

/// Where the anchor of a mark is linked.
pub fn mark_slot(mark: usize) -> usize {
    4 + 4 * mark
}

/// The mark whose anchor is linked at a position, if it is a slot.
fn mark_at(position: usize) -> Option<usize> {
    let past_first = position.checked_sub(mark_slot(0))?;
    (past_first % 4 == 0).then_some(past_first / 4)
}

/// Where a slot of the base array is: each base has one for each class.
pub fn base_slot(slot: usize) -> usize {
    2 + 2 * slot
}

/// The slot of the base array at a position, if it is one.
fn base_slot_at(position: usize) -> Option<usize> {
    let past_first = position.checked_sub(base_slot(0))?;
    (past_first % 2 == 0).then_some(past_first / 2)
}

/// The coverage of the marks of some classes, which is never that of the whole table.
struct BesideClasses<'a> {
    marks: &'a MarkBasePos<'a>,
    partial: usize,
}

impl Beside for BesideClasses<'_> {
    fn restart(&mut self) {
        self.partial = 4;
    }

    fn add(&mut self, class: usize) {
        self.partial += 2 * self.marks.mark_count(class);
    }

    fn bytes(&self) -> usize {
        self.partial
    }
}

impl Opened for MarkBasePos<'_> {
    fn objects(&self) -> Objects<'_> {
        self.objects
    }

    fn number(&self) -> u32 {
        self.table
    }

    fn glyph_count(&self) -> usize {
        self.mark_glyphs.len()
    }

    fn item_count(&self) -> usize {
        self.class_count
    }

    fn links_are_at_slots(&self) -> bool {
        let all_stand = |object, is_slot: fn(usize) -> bool| {
            let links = self.objects.offsets_of(object).iter();
            links.map(|link| link[1] as usize).all(is_slot)
        };
        all_stand(self.table, |position| OFFSETS.contains(&position))
            && all_stand(self.mark_array, |position| mark_at(position).is_some())
            && all_stand(self.base_array, |position| base_slot_at(position).is_some())
    }

    fn sets_are_sorted(&self) -> bool {
        true
    }

    fn links_of_item(&self, class: usize) -> Vec<Link> {
        let of_class = |mark: usize| usize::from(self.mark_classes[mark]) == class;
        let of_marks = self.mark_links().filter(|&(mark, _)| of_class(mark));
        let in_column = |place: &[usize; 2]| place[1] == class;
        let of_bases = self.base_links().filter(|(place, _)| in_column(place));
        let of_marks = of_marks.map(|(_, link)| link);
        of_marks.chain(of_bases.map(|(_, link)| link)).collect()
    }

    fn parts(&self) -> Vec<u32> {
        let links = self.objects.offsets_of(self.table).iter();
        links.map(|link| link[3]).collect()
    }

    fn start(&self) -> usize {
        16 + self.objects.bytes(self.base_coverage).len()
    }

    fn own_cost(&self, class: usize) -> usize {
        2 * self.base_count + 4 * self.mark_count(class)
    }

    fn beside(&self) -> Box<dyn Beside + '_> {
        Box::new(BesideClasses {
            marks: self,
            partial: 4,
        })
    }

    fn parts_together(&self) -> usize {
        let parts = OFFSETS.map(|position| self.objects.child_at(self.table, position));
        let parts = parts.into_iter().flatten();
        parts.map(|part| self.objects.bytes(part).len()).sum()
    }

    fn write(&self, cuts: &[usize]) -> Written {
        written::write(self, cuts)
    }
}
