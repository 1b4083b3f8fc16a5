//! Format 2: rows of records.

use super::{
    draft::Draft,
    glyphs::{class_def, coverage, coverage_ranges, glyphs},
    growth::{grow, Sizes},
    value_format,
};
use crate::{
    model::{numbers::bytes, values::ValueFormat},
    Random,
};

/// How large a table is, and how much there is beside it.
pub struct Plan {
    pub formats: [ValueFormat; 2],
    pub rows: usize,
    pub columns: usize,
    /// Glyphs that are covered.
    pub glyphs: usize,
    /// Glyphs that class definition 2 names.
    pub second_glyphs: usize,
    /// The first of the records that may have devices, and the one behind the last.
    pub records: [usize; 2],
    /// There are fewer links to devices than this.
    pub device_links: usize,
}

const FEW: usize = 40;

/// Drafts a table with all that it leads to.
pub fn draft(draft: &mut Draft, random: &mut Random) -> usize {
    let plan = match random.below(20) {
        0..=6 => Plan::small(random),
        7 => Plan::crowded(random),
        8..=15 => Plan::rows(random),
        16..=18 => Plan::wrapping(random),
        _ => Plan::estimates(random),
    };
    let table = draft.object(plan.table(random));
    let parts = plan.parts(draft, random);
    link_parts(draft, table, parts);
    plan.devices(draft, random, table, parts[2]);
    table
}

/// Links coverage and class definitions 1 and 2.
pub fn link_parts(draft: &mut Draft, table: usize, parts: [usize; 3]) {
    for (position, part) in [2, 8, 10].into_iter().zip(parts) {
        draft.link(table, position, part);
    }
}

impl Plan {
    /// Few records, of any format: devices decide.
    fn small(random: &mut Random) -> Self {
        let rows = random.below(16);
        let columns = random.below(7);
        Self {
            formats: [(); 2].map(|()| value_format(random)),
            rows,
            columns,
            glyphs: random.below(40),
            second_glyphs: random.below(40),
            records: [0, rows * columns],
            device_links: FEW,
        }
    }

    /// Rows of few records, with so many devices that nearly each row may be cut.
    fn crowded(random: &mut Random) -> Self {
        let rows = random.within(80..=400);
        let columns = random.within(1..=2);
        let device = ValueFormat(0x10 << random.below(4));
        Self {
            formats: [device, value_format(random)],
            rows,
            columns,
            glyphs: random.below(600),
            second_glyphs: random.below(40),
            records: [0, rows * columns],
            device_links: 4 * rows,
        }
    }

    /// Rows that fill one or several tables.
    fn rows(random: &mut Random) -> Self {
        let field = 1 << random.below(8);
        let formats = [0, field].map(|bits| ValueFormat(value_format(random).0 | bits));
        let record: usize = formats.map(ValueFormat::size).iter().sum();
        let most_columns = random.pick(&[3, 300, 2_000]);
        let columns = random.within(1..=most_columns);
        let most_bytes = random.pick(&[40_000, 130_000, 200_000]);
        let rows = (random.below(most_bytes) / (record * columns)).min(65_535);
        Self {
            formats,
            rows,
            columns,
            glyphs: random.below(300),
            second_glyphs: random.below(300),
            records: [0, rows * columns],
            device_links: FEW,
        }
    }

    /// More than 65,536 records, often with devices only where no product wraps.
    fn wrapping(random: &mut Random) -> Self {
        let devices = [(0x10, 0), (0, 0x20), (0x40, 0xFF00), (0x0100, 0x80)];
        let (format1, format2) = random.pick(&devices);
        let columns = random.within(100..=1_000);
        let rows = random.within(65_700..=80_000) / columns + 1;
        let records = rows * columns;
        Self {
            formats: [ValueFormat(format1), ValueFormat(format2)],
            rows,
            columns,
            glyphs: random.below(300),
            second_glyphs: random.below(300),
            records: random.pick(&[
                [0, records],
                [0, records - 65_536],
                [65_536, records],
                [records - 65_536, 65_536],
                [records - 65_536, 65_536],
            ]),
            device_links: FEW,
        }
    }

    /// Rows of few bytes or none, under long coverage and class definitions.
    fn estimates(random: &mut Random) -> Self {
        let rows = random.within(1..=60);
        let columns = random.below(3);
        Self {
            formats: [ValueFormat(random.pick(&[0, 4, 0x11])), ValueFormat(0)],
            rows,
            columns,
            glyphs: random.pick(&[5_000, 12_000, 32_000, 65_536]),
            second_glyphs: random.pick(&[10, 3_000, 30_000]),
            records: [0, rows * columns],
            device_links: FEW,
        }
    }

    fn record_size(&self) -> usize {
        self.formats.map(ValueFormat::size).iter().sum()
    }

    /// The positions of a record's devices.
    pub fn device_positions(&self, record: usize) -> Vec<usize> {
        let [format1, format2] = self.formats;
        let slots = format1.devices().map(|device| 2 * device);
        let more = format2.devices().map(|device| format1.size() + 2 * device);
        let start = 16 + record * self.record_size();
        slots.chain(more).map(|slot| start + slot).collect()
    }

    /// The table's bytes: those of its offsets and records are anything.
    pub fn table(&self, random: &mut Random) -> Vec<u8> {
        let [format1, format2] = self.formats;
        let [coverage, class_def1, class_def2] = [(); 3].map(|()| random.number() as u16);
        let (rows, columns) = (self.rows as u16, self.columns as u16);
        let mut table = bytes([
            2, coverage, format1.0, format2.0, class_def1, class_def2, rows, columns,
        ]);
        table.extend(random.bytes(self.rows * self.columns * self.record_size()));
        table
    }

    /// Coverage and class definitions 1 and 2, which may be one object.
    fn parts(&self, draft: &mut Draft, random: &mut Random) -> [usize; 3] {
        let glyphs = glyphs(random, self.glyphs);
        if random.one_in(8) {
            let all = draft.object(coverage_ranges(random, &glyphs));
            let second = self.class_def2(draft, random);
            return [all, all, random.pick(&[all, second])];
        }
        let coverage = draft.object(coverage(random, &glyphs));
        let classes = classes(random, self.rows, &glyphs);
        let class_def1 = draft.object(class_def(random, &classes));
        let class_def2 = self.class_def2(draft, random);
        [
            coverage,
            class_def1,
            random.pick(&[class_def2, class_def2, class_def2, class_def1]),
        ]
    }

    fn class_def2(&self, draft: &mut Draft, random: &mut Random) -> usize {
        let glyphs = glyphs(random, self.second_glyphs);
        let classes = classes(random, self.columns, &glyphs);
        draft.object(class_def(random, &classes))
    }

    /// Links some device slots. Class definition 2 may lead to a device, and be one itself.
    fn devices(&self, draft: &mut Draft, random: &mut Random, table: usize, class_def2: usize) {
        let [first, end] = self.records;
        if self.device_positions(first).is_empty() || first == end {
            return;
        }
        let sizes = Sizes::any(random);
        let mut devices = grow(draft, random, sizes);
        if random.one_in(8) {
            draft.link_anywhere(random, class_def2, devices[0]);
            devices.push(class_def2);
        }
        for _ in 0..random.below(self.device_links) {
            let any = random.within(first..=end - 1);
            let record = random.pick(&[any, any, any, first, end - 1]);
            let position = random.pick(&self.device_positions(record));
            draft.link(table, position, random.pick(&devices));
        }
    }
}

/// Classes for glyphs: in runs or not, some at the count or past it.
fn classes(random: &mut Random, count: usize, glyphs: &[u16]) -> Vec<(u16, u16)> {
    let most = count + random.pick(&[0, 0, 1, 3]);
    let run = random.within(1..=5);
    let mut class = 0;
    let entry = |&glyph| {
        if random.one_in(run) {
            class = random.below(most.max(1)) as u16;
        }
        (glyph, class)
    };
    glyphs.iter().map(entry).collect()
}
