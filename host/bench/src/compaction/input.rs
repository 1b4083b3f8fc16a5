//! What is compacted.

use crate::input::{order_name, LARGE, MIDDLE, SMALL};
use differential::{
    check::Split,
    generate::{
        large::{self, Fill, Order},
        Case,
    },
    lend, Archive, Compaction, Edition, Marks, Random,
};
use oracle::Store;

/// Stores of one shape, and what their roots are.
#[derive(Clone, Copy, Debug, PartialEq, Eq)]
pub enum Shape {
    /// A PairPos table of format 1 behind its split. Kept and new tables are roots.
    Pairs,
    /// The same, and every second of these is a root: about half of all goes.
    Half,
    /// A MarkBasePos table behind its split. Kept and new tables are roots.
    Marks,
    /// Objects of 256 bytes with four links each, of which one is order-only. The first object goes.
    Dense,
    /// The same, and nothing goes.
    Whole,
}

impl Shape {
    /// All of them.
    pub const ALL: [Self; 5] = [
        Self::Pairs,
        Self::Half,
        Self::Marks,
        Self::Dense,
        Self::Whole,
    ];

    /// In a few words.
    pub const fn name(self) -> &'static str {
        match self {
            Self::Pairs => "format 1, split",
            Self::Half => "format 1, split, half kept",
            Self::Marks => "marks, split",
            Self::Dense => "four links an object",
            Self::Whole => "the same, nothing goes",
        }
    }

    /// The largest size.
    const fn most(self) -> usize {
        match self {
            Self::Pairs | Self::Half => large::MOST_FORMAT1,
            Self::Marks => 40_000,
            Self::Dense | Self::Whole => 65_536,
        }
    }

    /// A store, and its roots.
    fn build(self, size: usize, order: Order, seed: u64) -> (Store, Vec<u32>) {
        match self {
            Self::Pairs => behind_split(large::format1(size, order, seed), false),
            Self::Half => {
                let (store, tables) = behind_split(large::format1(size, order, seed), false);
                (store, tables.into_iter().step_by(2).collect())
            }
            Self::Marks => behind_split(large::marks(size, Fill::Full, order, seed), true),
            Self::Dense => (large::dense(size, seed), vec![1]),
            Self::Whole => (large::dense(size, seed), vec![0]),
        }
    }
}

/// The store behind the split of its table, and the tables that came of it.
fn behind_split(case: Case, is_marks: bool) -> (Store, Vec<u32>) {
    let (store, table, edition) = (&case.store, case.table, Edition::First);
    let random = &mut Random::new(0);
    let split = match is_marks {
        false => Split::by(&Archive, &lend::exactly(store, table, edition, random)),
        true => {
            let call = lend::marks_exactly(store, table, edition, random);
            Split::by(&Marks(&Archive), &call)
        }
    };
    let tables = split.tables();
    (split.after.store, tables)
}

/// Compactions of one kind.
pub struct Input {
    /// What the stores are like.
    pub shape: Shape,
    /// How many objects there are, before the split if there was one.
    pub size: usize,
    /// How the objects are numbered.
    pub order: Order,
    /// How often they take their turn in a run.
    pub repetitions: usize,
    /// The compactions, which take turns. Their walks are exactly as long as is needed, and zero.
    pub calls: Vec<Compaction>,
}

impl Input {
    fn of(shape: Shape, size: usize, order: Order, (stores, repetitions): (u64, usize)) -> Self {
        let calls = (0..stores).map(|seed| {
            let (store, roots) = shape.build(size, order, seed);
            let mut call = lend::compaction_exactly(&store, roots, &mut Random::new(0));
            call.walk.fill(0);
            call
        });
        Self {
            shape,
            size,
            order,
            repetitions,
            calls: calls.collect(),
        }
    }

    /// Its shape and size.
    pub fn name(&self) -> String {
        let [_, objects, links] = self.calls[0].store.counts;
        let (shape, order) = (self.shape.name(), order_name(self.order));
        format!("compaction, {shape}, {objects} objects ({order}), {links} links")
    }
}

/// Those that take a moment.
pub fn small() -> Vec<Input> {
    let of = |shape| Input::of(shape, 1_000, Order::Made, SMALL);
    Shape::ALL.map(of).into()
}

/// All of them, those of each shape in order of size.
pub fn all() -> Vec<Input> {
    let mut inputs = Vec::new();
    for shape in Shape::ALL {
        for order in [Order::Made, Order::Any] {
            if order == Order::Any && shape != Shape::Pairs {
                continue;
            }
            inputs.push(Input::of(shape, 1_000, order, SMALL));
            inputs.push(Input::of(shape, 10_000, order, MIDDLE));
            inputs.push(Input::of(shape, shape.most(), order, LARGE));
        }
    }
    inputs
}
