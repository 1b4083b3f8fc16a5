//! Stores of a given size and seed, with a table that is cut in several places.
//!
//! Bytes, links, items, covered glyphs and cuts all grow as the objects do. No record has a number
//! past 65,535, so the oracle moves all links as it should.

use super::{
    draft::Draft,
    format1::{pair_set, table},
    format2::{link_parts, Plan},
    marks::{Parts, Shape},
    Case,
};
use crate::{
    model::{
        class_def, coverage,
        marks::{base_slot, mark_slot},
        values::ValueFormat,
    },
    Random,
};
use oracle::{link, Store};
use std::ops::RangeInclusive;

/// How the objects of a store are numbered.
#[derive(Clone, Copy, Debug, PartialEq, Eq)]
pub enum Order {
    /// One after the other as items lead to them, as those who pack tables do it.
    Made,
    /// In any order, so that neighbours have nothing to do with each other.
    Any,
}

/// How much of a base array has anchors.
#[derive(Clone, Copy, Debug, PartialEq, Eq)]
pub enum Fill {
    /// Every slot.
    Full,
    /// One slot in three.
    Sparse,
}

/// How the covered glyphs of [`many_glyphs`] lie.
#[derive(Clone, Copy, Debug, PartialEq, Eq)]
pub enum Spread {
    /// One beside the other, in sixteen classes.
    Dense,
    /// As far apart as there is room, in sixteen classes.
    Sparse,
    /// One beside the other, each in a class of its own.
    Alone,
}

/// How many objects [`format1`] may have, so that a split has room for its own: near 65,536.
pub const MOST_FORMAT1: usize = 65_120;

/// How many objects [`format2`] may have.
pub const MOST_FORMAT2: usize = 64_860;

const NO_FIELDS: ValueFormat = ValueFormat(0);
/// X advance.
const ADVANCE: ValueFormat = ValueFormat(4);
/// X advance, and its device.
const KERNING: ValueFormat = ValueFormat(0x44);

/// A format 1 table. Of four objects three are pair sets, and one is a device that sets share.
pub fn format1(objects: usize, order: Order, seed: u64) -> Case {
    let mut random = Random::new(seed);
    let mut draft = Draft::default();
    let device_count = objects / 4;
    let slots = objects - device_count - 2;
    let formats = [KERNING, NO_FIELDS];
    let table = draft.object(table(&mut random, formats, slots));
    let coverage = draft.object(coverage::write(&glyphs(slots)));
    draft.link(table, 2, coverage);

    let devices = devices(&mut draft, &mut random, device_count, 6..=30);
    for slot in 0..slots {
        let near = &devices[slot * (device_count - NEAR) / slots..][..NEAR];
        let len = random.within(200..=330);
        let set = pair_set(&mut draft, &mut random, formats, len, near);
        draft.link(table, 10 + 2 * slot, set);
    }
    laid_out(&draft, table, order, &mut random)
}

/// A format 2 table. All objects but its parts are devices, of which each record has two.
pub fn format2(objects: usize, order: Order, seed: u64) -> Case {
    let mut random = Random::new(seed);
    let columns = 32;
    let rows = objects / columns;
    class_table(
        Plan {
            formats: [KERNING, KERNING],
            rows,
            columns,
            glyphs: objects,
            second_glyphs: objects,
            records: [0, rows * columns],
            device_links: 2 * rows * columns + 1,
        },
        objects - 4,
        205..=235,
        order,
        &mut random,
    )
}

/// A format 2 table of many records and few devices: 300 objects and 33,003 links.
pub fn few_objects(seed: u64) -> Case {
    let mut random = Random::new(seed);
    let (rows, columns) = (220, 150);
    class_table(
        Plan {
            formats: [KERNING, NO_FIELDS],
            rows,
            columns,
            glyphs: 2_000,
            second_glyphs: 2_000,
            records: [0, rows * columns],
            device_links: rows * columns + 1,
        },
        296,
        6..=6,
        Order::Made,
        &mut random,
    )
}

/// A format 2 table of four objects that covers so many glyphs. Where they lie apart there are at most
/// 32,768.
pub fn many_glyphs(count: usize, spread: Spread, seed: u64) -> Case {
    let mut random = Random::new(seed);
    let apart = match spread {
        Spread::Dense | Spread::Alone => 1,
        Spread::Sparse => (65_536 / count).max(2),
    };
    let glyphs: Vec<u16> = (0..65_536)
        .step_by(apart)
        .map(|glyph| glyph as u16)
        .take(count)
        .collect();
    let rows = match spread {
        Spread::Dense | Spread::Sparse => 16,
        Spread::Alone => count.min(65_535),
    };
    let classes = match spread {
        Spread::Dense | Spread::Sparse => classes(&mut random, rows, &glyphs),
        Spread::Alone => glyphs
            .iter()
            .map(|&glyph| (glyph, glyph % rows as u16))
            .collect(),
    };
    let columns = 128_000 / rows + 1;
    let plan = Plan {
        formats: [ADVANCE, NO_FIELDS],
        rows,
        columns,
        glyphs: glyphs.len(),
        second_glyphs: columns,
        records: [0, 0],
        device_links: 0,
    };
    let mut draft = Draft::default();
    let table = with_parts(&mut draft, &plan, &glyphs, &classes, &mut random);
    laid_out(&draft, table, Order::Made, &mut random)
}

/// A MarkBasePos table with so many anchors, of which slots of both arrays share those near to them.
///
/// There is a class for a hundred of them, and a mark for eight. Whatever the fill, there are about as
/// many links: a sparse array has three times the bases.
pub fn marks(anchors: usize, fill: Fill, order: Order, seed: u64) -> Case {
    let mut random = Random::new(seed);
    let mut draft = Draft::default();
    let bases = match fill {
        Fill::Full => 150,
        Fill::Sparse => 450,
    };
    let shape = Shape {
        classes: anchors / 100,
        marks: anchors / 8,
        bases,
    };
    let table = draft.object(shape.table(&mut random));
    let mark_classes = shape.mark_classes(&mut random);
    let parts = Parts {
        mark_coverage: draft.object(coverage::write(&glyphs(shape.marks))),
        base_coverage: draft.object(coverage::write(&glyphs(bases))),
        mark_array: draft.object(shape.mark_array(&mut random, &mark_classes)),
        base_array: draft.object(shape.base_array(&mut random)),
    };
    parts.link(&mut draft, table);

    let anchors = devices(&mut draft, &mut random, anchors, 205..=235);
    let near = |class: usize, place: usize, count: usize| {
        let columns = shape.classes * count;
        &anchors[(class * count + place) * (anchors.len() - NEAR) / columns..][..NEAR]
    };
    for (mark, &class) in mark_classes.iter().enumerate() {
        let anchor = random.pick(near(class.into(), mark, shape.marks));
        draft.link(parts.mark_array, mark_slot(mark), anchor);
    }
    for slot in 0..bases * shape.classes {
        if fill == Fill::Full || random.one_in(3) {
            let (base, class) = (slot / shape.classes, slot % shape.classes);
            let anchor = random.pick(near(class, base, bases));
            draft.link(parts.base_array, base_slot(slot), anchor);
        }
    }
    laid_out(&draft, table, order, &mut random)
}

/// The same store with order-only links: an object has half as many as it has offsets, as far as there are
/// objects, and is placed after some from the first to the last.
pub fn with_orders(mut case: Case, seed: u64) -> Case {
    let mut random = Random::new(seed);
    let store = &mut case.store;
    let objects = store.counts[1] as usize;
    let mut rows = Vec::new();
    let mut offset_count = 0;
    for offsets in store.links_in_use().chunk_by(|a, b| a[0] == b[0]) {
        offset_count += offsets.len();
        let count = (offset_count / 2).min(objects);
        offset_count -= 2 * count;
        let first = random.below(objects);
        let children = (0..count).map(|place| (first + place * objects / count) % objects);
        let orders = children.map(|child| link::order_only(offsets[0][0], child as u32));
        rows.extend(offsets.iter().copied().chain(orders));
    }
    rows.sort_unstable_by_key(link::rank);
    store.counts[2] = rows.len() as u32;
    store.links = rows.into_flattened();
    case
}

/// A format 2 table each of whose records has its devices, from among those near to it.
fn class_table(
    plan: Plan,
    device_count: usize,
    lengths: RangeInclusive<usize>,
    order: Order,
    random: &mut Random,
) -> Case {
    let mut draft = Draft::default();
    let glyphs = glyphs(plan.glyphs);
    let classes = classes(random, plan.rows, &glyphs);
    let table = with_parts(&mut draft, &plan, &glyphs, &classes, random);
    let devices = devices(&mut draft, random, device_count, lengths);
    let [first, end] = plan.records;
    for record in first..end {
        let near = &devices[record * (device_count - NEAR) / end..][..NEAR];
        for position in plan.device_positions(record) {
            draft.link(table, position, random.pick(near));
        }
    }
    laid_out(&draft, table, order, random)
}

/// The table itself, with coverage and class definitions.
fn with_parts(
    draft: &mut Draft,
    plan: &Plan,
    glyphs: &[u16],
    glyph_classes: &[(u16, u16)],
    random: &mut Random,
) -> usize {
    let table = draft.object(plan.table(random));
    let second_glyphs = self::glyphs(plan.second_glyphs);
    let parts = [
        coverage::write(glyphs),
        class_def::write(glyph_classes),
        class_def::write(&classes(random, plan.columns, &second_glyphs)),
    ];
    let parts = parts.map(|part| draft.object(part));
    link_parts(draft, table, parts);
    table
}

/// From among how many devices or anchors an item takes its own.
const NEAR: usize = 40;

fn devices(
    draft: &mut Draft,
    random: &mut Random,
    count: usize,
    lengths: RangeInclusive<usize>,
) -> Vec<usize> {
    let mut device = |_| {
        let len = random.within(lengths.clone());
        draft.object(random.bytes(len))
    };
    (0..count).map(&mut device).collect()
}

/// So many glyphs in runs of 16, as far as there is room between them.
fn glyphs(count: usize) -> Vec<u16> {
    let gaps = (65_536 - count) / (count / 16 + 1);
    let glyph = |place| place + place / 16 * gaps.min(4);
    (0..count).map(|place| glyph(place) as u16).collect()
}

/// Classes in short runs, in no order.
fn classes(random: &mut Random, count: usize, glyphs: &[u16]) -> Vec<(u16, u16)> {
    let mut class = 0;
    let entry = |&glyph| {
        if random.one_in(3) {
            class = random.below(count) as u16;
        }
        (glyph, class)
    };
    glyphs.iter().map(entry).collect()
}

fn laid_out(draft: &Draft, table: usize, order: Order, random: &mut Random) -> Case {
    let (store, numbers) = match order {
        Order::Made => draft.lay_out_in(0..draft.count(), random),
        Order::Any => draft.lay_out(random),
    };
    Case {
        store,
        table: numbers[table],
    }
}

/// How many bytes each object of [`dense`] has, and how many links.
const DENSE: (usize, u32) = (256, 4);

/// A store of so many objects of 256 bytes, each with four links, of which one is order-only; of 65,536 all that
/// a store has is in use. All that object 1 leads to are the others but object 0, to which no offset leads.
pub fn dense(objects: usize, seed: u64) -> Store {
    let mut random = Random::new(seed);
    let (bytes, links) = DENSE;
    let count = objects as u32;
    let any = |random: &mut Random| 1 + random.below(objects - 1) as u32;
    let mut rows = Vec::new();
    for object in 0..count {
        let below = [2 * object, 2 * object + 1, any(&mut random)];
        for (place, child) in (0..).zip(below) {
            let child = match child {
                0 => any(&mut random),
                child if child >= count => any(&mut random),
                child => child,
            };
            rows.push(link::offset(object, 2 * place, child));
        }
        let child = random.below(objects) as u32;
        rows.push(link::order_only(object, child));
    }
    let ends = (0..count).map(|object| object * bytes as u32);
    Store {
        data: random.bytes(bytes * objects),
        objects: ends.flat_map(|head| [head, head + bytes as u32]).collect(),
        links: rows.into_flattened(),
        counts: [count * bytes as u32, count, count * links],
    }
}
