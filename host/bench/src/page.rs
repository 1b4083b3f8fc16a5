//! The tables, for a terminal and for a page.

mod compaction;

use crate::{
    compaction::Figures as Compaction,
    figures::{growth, noise, Compared, Figures, Second, Spread},
    input::{order_name, table_name, Shape},
    timing::Sides,
};
use differential::generate::large::Order;
use std::{fmt::Write, thread, time::Duration};

const HEAD: &str = "\
# How long it takes

Splits and cut plans of the proved library beside those of the crate's text (`host/oracle`), on the same stores, in one run of
`cargo run --release -p bench -- --write` in `host/`, which wrote this page. They are those of the first edition of the cutting rule, which is
the crate's. The second edition is timed beside the first, in turns of their own, of which now the one comes first and now the other.

What is timed, on our side: one call of `split_pairpos` or `cut_plan` of the archive, and of `split_markbasepos` or
`cut_plan_markbasepos` for mark-to-base tables, with all its checks of the store and with the clearing of the scratch. It is lent exactly
what it needs; the scratch is zero at entry.

What is timed, on the oracle's side: one call of the crate's `split_pairpos` or `split_markbase_pos` on a graph that is ready. It looks at
no more than the table needs, and checks neither store nor links. Its graph has room for what is added, so no buffer has to grow. The crate
has no cut plan of its own: for it the same call is timed, and ends where it would add its first new object, since by then all cut places
are known.

What is not timed: making the store, turning it into the oracle's graph, copying either, and giving memory back. The sides take turns, and
each call has a copy of its own, made right before it. A time is that of the processor: waiting for a core while others have it does not
count.
";

const INPUTS: &str = "\
The stores come from `differential::generate::large`. In format 1 three of four objects are pair sets of 200 to 330 bytes, and one is a
device that sets share. In format 2 rows have 32 records with two devices each, and nearly all objects are devices of 205 to 235 bytes.
Bytes, links, items, covered glyphs and cuts grow as the objects do; the largest are as near to 65,536 objects as leaves room for the new
ones. Objects are numbered as they were made, which is how those who pack tables leave them, or in any order, which is the worst for both
sides; the plot shows the former. One is a class table as variable fonts have it: 220 rows of 150 records, each of which has one of
296 devices.

Mark-to-base tables have 1,000 and 10,000 anchors of 205 to 235 bytes, and five other objects; a class for a hundred anchors, a mark for
eight, and marks in no order of classes. A full base array has 150 bases and an anchor in each slot; a sparse one has 450 bases and an
anchor in one slot of three, so that both have about as many links.

Those with order-only links are the same stores, in which a third of all links are order-only: an object has half as many of them as it has
offsets. The crate knows none, and the oracle has the offsets alone.

Class tables of four objects cover 1,000, 10,000 and 65,536 glyphs, in sixteen classes in short runs or with one glyph a class. Dense glyphs
stand one beside the other, sparse ones as far apart as there is room (half of all glyphs at most). They show what it takes to read, sort and
count glyphs.
";

const HEADS: [&str; 11] = [
    "table",
    "numbered",
    "objects",
    "links",
    "data bytes",
    "glyphs",
    "cuts",
    "stores × turns",
    "ours",
    "oracle",
    "ours / oracle",
];

const WHOLE_SPLIT: &str = "\
The last column is our cut plan by the oracle's whole split, which is what the crate has for one who asks for cut places.
";

/// All tables.
pub fn text(figures: &[Figures], compactions: &[Compaction]) -> String {
    let mut text = String::new();
    let rows = figures.iter().map(|input| row(input, &input.split));
    write_table(&mut text, "Split", &HEADS, rows);
    let rows = figures.iter().map(|input| {
        let mut cells = row(input, &input.plan);
        cells.push(ratio(input.plan_by_split));
        cells
    });
    let heads = [&HEADS[..], &["ours / its split"]].concat();
    write_table(&mut text, "Cut plan", &heads, rows);
    text += "\n";
    text += WHOLE_SPLIT;
    let heads = [
        "table",
        "numbered",
        "objects",
        "cuts by 1",
        "cuts by 2",
        "split by 2",
        "split, 2 / 1",
        "cut plan by 2",
        "cut plan, 2 / 1",
    ];
    let rows = figures.iter().map(second_row);
    write_table(&mut text, "The second edition", &heads, rows);
    text += "\nThe goal is 1.5 times the first edition's time at most.\n";
    let rows = growths(figures);
    if !rows.is_empty() {
        let heads = ["from 1,000 to 10,000", "ours", "oracle"];
        write_table(&mut text, "Growth", &heads, rows.into_iter());
        text += "\nThe goal is 11 times at most, for ten times the objects.\n";
    }
    compaction::write(&mut text, compactions);
    text
}

/// The page, with what was done and how far it can be trusted.
pub fn markdown(figures: &[Figures], compactions: &[Compaction]) -> String {
    let tables = text(figures, compactions);
    let trust = trust(figures);
    let plot = "![Times by objects, both axes logarithmic](bench.svg)";
    let inputs = [INPUTS, compaction::INPUTS].join("\n");
    format!("{HEAD}\n{trust}\n{plot}\n{tables}\n{inputs}")
}

/// How often it was timed, and how far the runs lie apart.
fn trust(figures: &[Figures]) -> String {
    let runs = figures[0].split.times.ours.run_medians.len();
    let cores = thread::available_parallelism().map_or(1, usize::from);
    let [half, all] = noise(figures).map(|part| format!("{:.0} %", 100.0 * part));
    format!(
        "A time is the median of all turns of {runs} runs, with the lower and the upper quartile beside it. In a run several stores of a\n\
         kind take turns, because a processor that meets the same one again and again knows by heart what comes; the tables say how many,\n\
         and how many turns each has in a run. A ratio is our time by the oracle's of the same turn, or the second edition's by the first's:\n\
         their median and quartiles. Counts are those of the first store.\n\
         \n\
         The machine has {cores} cores. How far it can be trusted: the medians of the {runs} runs lie up to {half} apart for half of what is\n\
         timed, and {all} at worst.\n"
    )
}

type Of = fn(&Figures) -> &Compared;

fn split(input: &Figures) -> &Compared {
    &input.split
}

fn plan(input: &Figures) -> &Compared {
    &input.plan
}

fn row(input: &Figures, compared: &Compared) -> Vec<String> {
    let [data, objects, links] = input.counts.map(|count| thousands(count as usize));
    let Sides { ours, oracle } = &compared.times;
    vec![
        table_name(input.shape, input.has_orders),
        order_name(input.order).to_string(),
        objects,
        links,
        data,
        thousands(input.glyphs),
        thousands(input.cuts.first),
        format!("{} × {}", input.stores, input.repetitions / input.stores),
        with_quartiles(ours),
        with_quartiles(oracle),
        ratio(compared.ratios),
    ]
}

fn second_row(input: &Figures) -> Vec<String> {
    let [_, objects, _] = input.counts;
    let Second { times, ratios } = &input.second_split;
    let Second {
        times: plan_times,
        ratios: plan_ratios,
    } = &input.second_plan;
    vec![
        table_name(input.shape, input.has_orders),
        order_name(input.order).to_string(),
        thousands(objects as usize),
        thousands(input.cuts.first),
        thousands(input.cuts.second),
        with_quartiles(times),
        ratio(*ratios),
        with_quartiles(plan_times),
        ratio(*plan_ratios),
    ]
}

fn ratio(quartiles: [f64; 3]) -> String {
    let [low, ratio, high] = quartiles.map(digits);
    format!("{ratio} ({low} to {high})")
}

/// Each shape's growth, where both sizes were timed.
fn growths(figures: &[Figures]) -> Vec<Vec<String>> {
    let mut rows = Vec::new();
    for (name, compared) in [("split", split as Of), ("cut plan", plan)] {
        for shape in Shape::GROWING {
            for order in [Order::Made, Order::Any] {
                let family =
                    |input: &&Figures| input.grows && input.shape == shape && input.order == order;
                let family: Vec<&Figures> = figures.iter().filter(family).collect();
                let find = |size| family.iter().find(|input| input.size == size);
                if let (Some(first), Some(second)) = (find(1_000), find(10_000)) {
                    let Sides { ours, oracle } = growth(compared(first), compared(second));
                    let (shape, unit, numbered) = (shape.name(), shape.unit(), order_name(order));
                    rows.push(vec![
                        format!("{name}, {shape}, {numbered}, {unit}"),
                        digits(ours),
                        digits(oracle),
                    ]);
                }
            }
        }
    }
    rows
}

fn write_table(
    text: &mut String,
    name: &str,
    heads: &[&str],
    rows: impl Iterator<Item = Vec<String>>,
) {
    let head = heads.iter().map(|head| head.to_string()).collect();
    let rule = vec!["---".to_string(); heads.len()];
    let rows: Vec<Vec<String>> = [head, rule].into_iter().chain(rows).collect();
    let width = |column: usize| rows.iter().map(|row| row[column].chars().count()).max();
    let widths: Vec<usize> = (0..rows[0].len()).filter_map(width).collect();
    writeln!(text, "\n## {name}\n").expect("room for text");
    for row in &rows {
        let cells = row.iter().zip(&widths);
        let cells: Vec<String> = cells
            .map(|(cell, width)| format!("{cell:width$}"))
            .collect();
        writeln!(text, "| {} |", cells.join(" | ")).expect("room for text");
    }
}

fn with_quartiles(spread: &Spread) -> String {
    let [low, median, high] = spread.quartiles;
    let unit = Unit::of(median);
    let [low, median, high] = [low, median, high].map(|time| digits(unit.count(time)));
    format!("{median} {} ({low} to {high})", unit.name)
}

/// What a time is told in.
pub struct Unit {
    name: &'static str,
    nanoseconds: f64,
}

impl Unit {
    /// The one in which a time is at least 1.
    pub fn of(time: Duration) -> Self {
        let units = [("ms", 1e6), ("µs", 1e3), ("ns", 1.0)];
        let fits = |unit: &(_, f64)| time.as_nanos() as f64 >= unit.1;
        let (name, nanoseconds) = units.into_iter().find(fits).unwrap_or(units[2]);
        Self { name, nanoseconds }
    }

    fn count(&self, time: Duration) -> f64 {
        time.as_nanos() as f64 / self.nanoseconds
    }
}

/// Three digits, or all before the point.
fn digits(number: f64) -> String {
    match number {
        100.0.. => format!("{number:.0}"),
        10.0.. => format!("{number:.1}"),
        _ => format!("{number:.2}"),
    }
}

/// A number with commas.
pub fn thousands(number: usize) -> String {
    match number {
        1_000.. => format!("{},{:03}", thousands(number / 1_000), number % 1_000),
        _ => number.to_string(),
    }
}
