//! The tables of compactions.

use super::{digits, ratio, thousands, with_quartiles, write_table};
use crate::{
    compaction::{Figures, Shape},
    input::order_name,
};
use differential::generate::large::Order;

/// What is compacted.
pub const INPUTS: &str = "\
What is compacted is the store behind a split of a format 1 or mark-to-base table as above, where the kept table and the new ones are roots,
or every second of them; and stores of objects of 256 bytes with four links each, of which one is order-only, up to all that a store may
have in use, where the first object goes and all that is left moves, or where nothing goes.
";

const TIMED: &str = "\
Timed is one call of `compact`, with its check of the store and with the clearing of the walk. Beside it, in the same turn: a plain copy of
the data and the rows that are kept, over a copy of the store; a pass over the store, which is a reading of a table that is not in use; and
a plain walk from the roots along the offsets. The goal is that a compaction takes no more than three such copies, a pass and a walk.
";

const HEADS: [&str; 13] = [
    "store",
    "numbered",
    "objects",
    "links",
    "data bytes",
    "objects kept",
    "bytes kept",
    "stores × turns",
    "ours",
    "copy",
    "pass",
    "walk",
    "ours / (3 copies, pass, walk)",
];

/// Writes the tables.
pub fn write(text: &mut String, figures: &[Figures]) {
    write_table(text, "Compaction", &HEADS, figures.iter().map(row));
    *text += "\n";
    *text += TIMED;
    let rows = growths(figures);
    if !rows.is_empty() {
        let heads = ["from", "to", "ours", "3 copies, pass, walk"];
        write_table(text, "Growth of compaction", &heads, rows.into_iter());
    }
}

fn row(input: &Figures) -> Vec<String> {
    let [data, objects, links] = input.before.map(|count| thousands(count as usize));
    let [bytes_kept, kept, _] = input.after.map(|count| thousands(count as usize));
    let times = [&input.ours, &input.copy, &input.pass, &input.walk].map(with_quartiles);
    let first = [
        input.shape.name().to_string(),
        order_name(input.order).to_string(),
        objects,
        links,
        data,
        kept,
        bytes_kept,
        format!("{} × {}", input.stores, input.repetitions / input.stores),
    ];
    let cells = first.into_iter().chain(times);
    cells.chain([ratio(input.ratios)]).collect()
}

/// From each size of a shape to the next.
fn growths(figures: &[Figures]) -> Vec<Vec<String>> {
    let mut rows = Vec::new();
    for shape in Shape::ALL {
        for order in [Order::Made, Order::Any] {
            let family = |input: &&Figures| input.shape == shape && input.order == order;
            let family: Vec<&Figures> = figures.iter().filter(family).collect();
            for two in family.windows(2) {
                let [ours, allowed] = two[1].growth_from(two[0]);
                let times = two[1].size as f64 / two[0].size as f64;
                let (name, size) = (shape.name(), thousands(two[0].size));
                rows.push(vec![
                    format!("{name}, {}, {size}", order_name(order)),
                    format!("{}, {} times", thousands(two[1].size), digits(times)),
                    digits(ours),
                    digits(allowed),
                ]);
            }
        }
    }
    rows
}
