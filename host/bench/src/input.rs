//! What is split.

use differential::generate::{
    large::{self, Fill, Order, Spread},
    Case,
};

/// Tables of one shape.
#[derive(Clone, Copy, Debug, PartialEq, Eq)]
pub enum Shape {
    /// PairPos, format 1.
    Format1,
    /// PairPos, format 2.
    Format2,
    /// MarkBasePos, with an anchor in each slot of the base array.
    FullMarks,
    /// MarkBasePos, with an anchor in one slot of three.
    SparseMarks,
    /// PairPos, format 2, of four objects and many glyphs.
    Glyphs(Spread),
}

impl Shape {
    /// Those of which objects or anchors grow, links and all the rest with them.
    pub const GROWING: [Self; 4] = [
        Self::Format1,
        Self::Format2,
        Self::FullMarks,
        Self::SparseMarks,
    ];

    /// In a few words.
    pub const fn name(self) -> &'static str {
        match self {
            Self::Format1 => "format 1",
            Self::Format2 => "format 2",
            Self::FullMarks => "marks, full",
            Self::SparseMarks => "marks, sparse",
            Self::Glyphs(Spread::Dense) => "format 2, glyphs dense",
            Self::Glyphs(Spread::Sparse) => "format 2, glyphs sparse",
            Self::Glyphs(Spread::Alone) => "format 2, a glyph a class",
        }
    }

    /// What its size counts.
    pub const fn unit(self) -> &'static str {
        match self {
            Self::Format1 | Self::Format2 => "objects",
            Self::FullMarks | Self::SparseMarks => "anchors",
            Self::Glyphs(_) => "glyphs",
        }
    }

    /// Whether it is one of MarkBasePos.
    pub const fn is_marks(self) -> bool {
        matches!(self, Self::FullMarks | Self::SparseMarks)
    }

    fn build(self, size: usize, order: Order, seed: u64) -> Case {
        match self {
            Self::Format1 => large::format1(size, order, seed),
            Self::Format2 => large::format2(size, order, seed),
            Self::FullMarks => large::marks(size, Fill::Full, order, seed),
            Self::SparseMarks => large::marks(size, Fill::Sparse, order, seed),
            Self::Glyphs(spread) => large::many_glyphs(size, spread, seed),
        }
    }
}

/// Stores of one kind, each with a table that is cut in several places.
pub struct Input {
    /// What the tables are like.
    pub shape: Shape,
    /// How many objects there are, or anchors, or glyphs.
    pub size: usize,
    /// How the objects are numbered.
    pub order: Order,
    /// Whether a third of the links are order-only.
    pub has_orders: bool,
    /// Whether it is one of those whose objects grow, links and all the rest with them.
    pub grows: bool,
    /// How often each side takes its turn in a run.
    pub repetitions: usize,
    /// The stores, which take turns: a processor that met one store again and again would know by
    /// heart what comes.
    pub cases: Vec<Case>,
}

/// How many stores of a size there are, and how often each side takes its turn in a run.
pub const SMALL: (u64, usize) = (16, 112);
pub const MIDDLE: (u64, usize) = (8, 48);
pub const LARGE: (u64, usize) = (1, 15);

impl Input {
    /// Some of a shape and size.
    fn of(shape: Shape, size: usize, order: Order, (stores, repetitions): (u64, usize)) -> Self {
        Self {
            shape,
            size,
            order,
            has_orders: false,
            grows: Shape::GROWING.contains(&shape),
            repetitions,
            cases: (0..stores)
                .map(|seed| shape.build(size, order, seed))
                .collect(),
        }
    }

    /// The same with order-only links beside the offsets.
    fn with_orders(self) -> Self {
        let cases = self.cases.into_iter().zip(0..);
        Self {
            has_orders: true,
            grows: false,
            cases: cases
                .map(|(case, seed)| large::with_orders(case, seed))
                .collect(),
            ..self
        }
    }

    fn few_objects() -> Self {
        let (stores, repetitions) = MIDDLE;
        let cases: Vec<Case> = (0..stores).map(large::few_objects).collect();
        Self {
            shape: Shape::Format2,
            size: cases[0].store.counts[1] as usize,
            order: Order::Made,
            has_orders: false,
            grows: false,
            repetitions,
            cases,
        }
    }

    /// Data bytes, objects and links in use in the first store; the others have about as many.
    pub fn counts(&self) -> [u32; 3] {
        self.cases[0].store.counts
    }

    /// Its shape and size.
    pub fn name(&self) -> String {
        let [_, objects, links] = self.counts();
        let (table, order) = (
            table_name(self.shape, self.has_orders),
            order_name(self.order),
        );
        format!("{table}, {objects} objects ({order}), {links} links")
    }
}

/// What tables are like, and whether they stand among order-only links.
pub fn table_name(shape: Shape, has_orders: bool) -> String {
    let name = shape.name();
    match has_orders {
        true => format!("{name}, order-only links"),
        false => name.into(),
    }
}

/// How objects are numbered, in two words.
pub fn order_name(order: Order) -> &'static str {
    match order {
        Order::Made => "as made",
        Order::Any => "any order",
    }
}

/// Those that take a moment.
pub fn small() -> Vec<Input> {
    let mut inputs: Vec<Input> = Shape::GROWING
        .into_iter()
        .map(|shape| Input::of(shape, 1_000, Order::Made, SMALL))
        .collect();
    inputs.extend(with_orders(&[(1_000, SMALL)]));
    inputs.push(Input::few_objects());
    inputs.extend(many_glyphs(&[(1_000, SMALL)]));
    inputs
}

/// All of them, those of each shape in order of size.
pub fn all() -> Vec<Input> {
    let mut inputs = Vec::new();
    for order in [Order::Made, Order::Any] {
        for shape in Shape::GROWING {
            inputs.push(Input::of(shape, 1_000, order, SMALL));
            inputs.push(Input::of(shape, 10_000, order, MIDDLE));
            let most = match shape {
                Shape::Format1 => large::MOST_FORMAT1,
                Shape::Format2 => large::MOST_FORMAT2,
                _ => continue,
            };
            inputs.push(Input::of(shape, most, order, LARGE));
        }
    }
    inputs.extend(with_orders(&[(1_000, SMALL), (10_000, MIDDLE)]));
    inputs.push(Input::few_objects());
    inputs.extend(many_glyphs(&[
        (1_000, SMALL),
        (10_000, MIDDLE),
        (65_536, LARGE),
    ]));
    inputs
}

/// Those that grow, with order-only links beside the offsets.
fn with_orders(sizes: &[(usize, (u64, usize))]) -> Vec<Input> {
    let of = |shape| {
        let input = move |&(size, turns)| Input::of(shape, size, Order::Made, turns).with_orders();
        sizes.iter().map(input)
    };
    Shape::GROWING.into_iter().flat_map(of).collect()
}

/// Many glyphs in four objects, dense, sparse, and one in a class.
fn many_glyphs(sizes: &[(usize, (u64, usize))]) -> Vec<Input> {
    let of = |spread| {
        let input =
            move |&(size, turns)| Input::of(Shape::Glyphs(spread), size, Order::Made, turns);
        sizes.iter().map(input)
    };
    let spreads = [Spread::Dense, Spread::Sparse, Spread::Alone];
    spreads.into_iter().flat_map(of).collect()
}
