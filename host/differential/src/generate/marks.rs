//! MarkBasePos tables: marks, bases and their anchors.

use super::{
    draft::Draft,
    glyphs::{coverage, glyphs},
    growth::{grow, Sizes},
};
use crate::{
    model::{
        marks::{
            base_slot, mark_slot, BASE_ARRAY_POS, BASE_COVERAGE_POS, MARK_ARRAY_POS,
            MARK_COVERAGE_POS,
        },
        numbers::bytes,
    },
    Random,
};

/// How large a table is.
#[derive(Clone, Copy)]
pub struct Shape {
    pub classes: usize,
    pub marks: usize,
    pub bases: usize,
}

/// A table, and how much of it is covered and has anchors.
struct Plan {
    shape: Shape,
    /// Covered glyphs, those of marks first; there may be more of either than marks or bases.
    glyphs: [usize; 2],
    /// So many of a hundred slots have an anchor, of the mark array and of the base array.
    filled: [usize; 2],
}

/// The objects that a table leads to.
#[derive(Clone, Copy)]
pub struct Parts {
    pub mark_coverage: usize,
    pub base_coverage: usize,
    pub mark_array: usize,
    pub base_array: usize,
}

/// Of more base slots than this, some are looked at.
const MOST_SLOTS: usize = 3_000;

/// Drafts a table with all that it leads to.
pub fn draft(draft: &mut Draft, random: &mut Random) -> usize {
    let plan = match random.below(20) {
        0..=8 => Plan::small(random),
        9..=12 => Plan::crowded(random),
        13..=15 => Plan::wide(random),
        16 => Plan::covered(random),
        17..=18 => Plan::one_array(random),
        _ => Plan::one_mark(random),
    };
    let classes = plan.shape.mark_classes(random);
    let parts = plan.parts(draft, random, &classes);
    let table = draft.object(plan.shape.table(random));
    parts.link(draft, table);
    let anchors = anchors(draft, random, parts);
    plan.link_anchors(draft, random, parts, &anchors);
    if random.one_in(3) {
        another_table(draft, random, plan.shape, parts);
    }
    table
}

impl Plan {
    /// Few of everything, or nothing: anchors decide.
    fn small(random: &mut Random) -> Self {
        let classes = random.pick(&[0, 1, 2, 3, 4, 6, 9, 12]);
        let bases = random.below(10);
        Self::of(random, classes, |random| random.below(20), bases)
    }

    /// So many classes that there are many cuts, where anchors are large.
    fn crowded(random: &mut Random) -> Self {
        let classes = random.within(60..=260);
        let bases = random.below(4);
        Self::of(random, classes, |random| random.below(400), bases)
    }

    /// Records that fill one or several tables, with few anchors or with many.
    fn wide(random: &mut Random) -> Self {
        let classes = random.within(1..=8);
        let bases = random.pick(&[0, 40, 600, 9_000, 20_000, 32_000]);
        let bases = bases - random.below(bases / 4 + 1);
        Self::of(
            random,
            classes,
            |random| random.pick(&[0, 30, 900, 9_000]),
            bases,
        )
    }

    /// A base coverage that is about as long as a table may be.
    fn covered(random: &mut Random) -> Self {
        let classes = random.within(1..=140);
        let bases = random.below(5);
        let mut plan = Self::of(random, classes, |random| random.below(30), bases);
        plan.glyphs[1] = random.pick(&[10_000, 32_750]) + random.below(20);
        plan
    }

    /// As many marks as bases, of two classes or none of them: one object may be both arrays.
    fn one_array(random: &mut Random) -> Self {
        let count = random.pick(&[0, 1, 3, 20]);
        let classes = if count == 0 { random.below(4) } else { 2 };
        Self::of(random, classes, |_| count, count)
    }

    /// A single mark of class 1: one object may be its coverage and its array.
    fn one_mark(random: &mut Random) -> Self {
        let classes = random.within(2..=5);
        let bases = random.below(4);
        let mut plan = Self::of(random, classes, |_| 1, bases);
        plan.glyphs[0] = 1;
        plan
    }

    /// Marks, as far as there is a class for them, and bases, under coverages that may say otherwise.
    fn of(
        random: &mut Random,
        classes: usize,
        marks: impl FnOnce(&mut Random) -> usize,
        bases: usize,
    ) -> Self {
        let marks = if classes == 0 { 0 } else { marks(random) };
        let more = random.pick(&[0, 0, 1, 5, 300]);
        let covered_bases = random.pick(&[bases, bases, bases + 1, bases / 2, 0]);
        Self {
            shape: Shape {
                classes,
                marks,
                bases,
            },
            glyphs: [marks + more, covered_bases],
            filled: [(); 2].map(|()| random.pick(&[100, 95, 64, 30, 4])),
        }
    }

    /// Coverages and arrays, of which some may be one object.
    fn parts(&self, draft: &mut Draft, random: &mut Random, classes: &[u16]) -> Parts {
        let shape = self.shape;
        let [mark_glyphs, base_glyphs] = self.glyphs.map(|count| glyphs(random, count));
        if shape.classes > 1 && shape.marks == 1 && mark_glyphs.len() == 1 && random.one_in(2) {
            let mark = draft.object(bytes([1, 1, mark_glyphs[0]]));
            return self.other_parts(draft, random, [mark, mark], &base_glyphs);
        }
        let mark_coverage = draft.object(coverage(random, &mark_glyphs));
        let mark_array = draft.object(shape.mark_array(random, classes));
        let mut parts = self.other_parts(draft, random, [mark_coverage, mark_array], &base_glyphs);
        let is_one = shape.marks == shape.bases && (shape.classes == 2 || shape.marks == 0);
        if is_one && !random.one_in(3) {
            parts.base_array = mark_array;
        }
        parts
    }

    /// Base coverage and base array.
    fn other_parts(
        &self,
        draft: &mut Draft,
        random: &mut Random,
        [mark_coverage, mark_array]: [usize; 2],
        base_glyphs: &[u16],
    ) -> Parts {
        let base_coverage = match random.one_in(8) {
            true => mark_coverage,
            false => draft.object(coverage(random, base_glyphs)),
        };
        Parts {
            mark_coverage,
            base_coverage,
            mark_array,
            base_array: draft.object(self.shape.base_array(random)),
        }
    }

    /// Links slots of both arrays. Where these are one object, slots of marks are slots of bases too.
    fn link_anchors(
        &self,
        draft: &mut Draft,
        random: &mut Random,
        parts: Parts,
        anchors: &[usize],
    ) {
        let shape = self.shape;
        let [marks, bases] = self.filled;
        for mark in 0..shape.marks {
            if random.below(100) < marks {
                draft.link(parts.mark_array, mark_slot(mark), random.pick(anchors));
            }
        }
        if parts.base_array == parts.mark_array {
            return;
        }
        let slots = shape.bases * shape.classes;
        for slot in 0..slots.min(MOST_SLOTS) {
            let slot = match slots > MOST_SLOTS {
                true => random.below(slots),
                false => slot,
            };
            if random.below(100) < bases {
                draft.link(parts.base_array, base_slot(slot), random.pick(anchors));
            }
        }
    }
}

impl Shape {
    /// The bytes of a table: those of its offsets are anything.
    pub fn table(&self, random: &mut Random) -> Vec<u8> {
        let [a, b, c, d] = [(); 4].map(|()| random.number() as u16);
        bytes([1, a, b, self.classes as u16, c, d])
    }

    /// A class for each mark, in order or not. Some classes may have none.
    pub fn mark_classes(&self, random: &mut Random) -> Vec<u16> {
        let named: Vec<u16> = (0..self.classes as u16).collect();
        let named = match random.one_in(3) {
            true => some(random, &named),
            false => named,
        };
        let mut classes: Vec<u16> = (0..self.marks).map(|_| random.pick(&named)).collect();
        if random.one_in(2) {
            classes.sort_unstable();
        }
        classes
    }

    /// A mark array whose offsets are anything, or zero.
    pub fn mark_array(&self, random: &mut Random, classes: &[u16]) -> Vec<u8> {
        let any = offset(random);
        let records = classes
            .iter()
            .flat_map(|&class| [class, random.number() as u16 & any]);
        let records: Vec<u16> = records.collect();
        bytes([self.marks as u16].into_iter().chain(records))
    }

    /// A base array whose offsets are anything, or zero.
    pub fn base_array(&self, random: &mut Random) -> Vec<u8> {
        let any = offset(random);
        let slots = (0..self.bases * self.classes).map(|_| random.number() as u16 & any);
        let slots: Vec<u16> = slots.collect();
        bytes([self.bases as u16].into_iter().chain(slots))
    }
}

impl Parts {
    /// Links them to their table.
    pub fn link(&self, draft: &mut Draft, table: usize) {
        draft.link(table, MARK_COVERAGE_POS, self.mark_coverage);
        draft.link(table, BASE_COVERAGE_POS, self.base_coverage);
        draft.link(table, MARK_ARRAY_POS, self.mark_array);
        draft.link(table, BASE_ARRAY_POS, self.base_array);
    }
}

/// Bits that an offset may have: all, or none.
fn offset(random: &mut Random) -> u16 {
    random.pick(&[0xFFFF, 0xFFFF, 0xFFFF, 0])
}

/// Some of these, at least one.
fn some(random: &mut Random, numbers: &[u16]) -> Vec<u16> {
    let mut some = numbers.to_vec();
    random.shuffle(&mut some);
    some.truncate(random.below(some.len().max(1)) + 1);
    some
}

/// Small anchors, larger objects, and now and then a part of the table, which then may lead deeper.
fn anchors(draft: &mut Draft, random: &mut Random, parts: Parts) -> Vec<usize> {
    let sizes = Sizes::any(random);
    let mut anchors = grow(draft, random, sizes);
    for _ in 0..random.pick(&[0, 3, 40]) {
        let len = random.pick(&[6, 8, 10]);
        let anchor = draft.object(random.bytes(len));
        if len == 10 {
            let device = random.pick(&anchors);
            draft.link(anchor, 6 + 2 * random.below(2), device);
        }
        anchors.push(anchor);
    }
    if random.one_in(6) {
        let coverage = random.pick(&[parts.mark_coverage, parts.base_coverage]);
        if coverage != parts.mark_array {
            let child = random.pick(&anchors);
            draft.link_anywhere(random, coverage, child);
        }
        let array = random.pick(&[parts.mark_array, parts.base_array]);
        anchors.extend([coverage, array]);
    }
    anchors
}

/// A table that shares arrays, and perhaps coverages.
fn another_table(draft: &mut Draft, random: &mut Random, shape: Shape, parts: Parts) {
    let table = draft.object(shape.table(random));
    parts.link(draft, table);
    if random.one_in(2) {
        let array = draft.object(bytes([0]));
        draft.link(table, random.pick(&[MARK_ARRAY_POS, BASE_ARRAY_POS]), array);
    }
}
