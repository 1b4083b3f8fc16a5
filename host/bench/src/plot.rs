//! The plot: times by objects, both axes logarithmic.

use crate::{
    figures::{Compared, Figures, Spread},
    input::Shape,
    page::thousands,
};
use differential::generate::large::Order;
use std::{
    fmt::{self, Write},
    time::Duration,
};

const WIDTH: f64 = 960.0;
const HEIGHT: f64 = 470.0;
const PANEL_WIDTH: f64 = 390.0;
const PANEL_HEIGHT: f64 = 320.0;
const PANEL_TOP: f64 = 90.0;
/// Each panel's left edge, title and times.
const PANELS: [(f64, &str, Of); 2] = [
    (75.0, "Split", |input| &input.split),
    (545.0, "Cut plan", |input| &input.plan),
];
/// Each shape's colour. They can be told apart by the colour-blind.
const COLOURS: [(Shape, &str); 4] = [
    (Shape::Format1, "#0072b2"),
    (Shape::Format2, "#d55e00"),
    (Shape::FullMarks, "#009e73"),
    (Shape::SparseMarks, "#cc79a7"),
];
const LEAST_OBJECTS: f64 = 200.0;
const MOST_OBJECTS: f64 = 100_000.0;

type Of = fn(&Figures) -> &Compared;

/// One of the sides.
#[derive(Clone, Copy)]
struct Side {
    name: &'static str,
    is_dashed: bool,
    of: fn(&Compared) -> &Spread,
}

const SIDES: [Side; 2] = [
    Side {
        name: "ours",
        is_dashed: false,
        of: |compared| &compared.times.ours,
    },
    Side {
        name: "oracle",
        is_dashed: true,
        of: |compared| &compared.times.oracle,
    },
];

/// The plot of all inputs whose objects are numbered as they were made, and whose links are all offsets.
pub fn svg(figures: &[Figures]) -> String {
    let mut text = String::new();
    draw(&mut text, figures).expect("room for text");
    text
}

fn draw(svg: &mut String, figures: &[Figures]) -> fmt::Result {
    writeln!(
        svg,
        "<svg xmlns='http://www.w3.org/2000/svg' viewBox='0 0 {WIDTH} {HEIGHT}' \
         font-family='sans-serif' font-size='12' fill='#222'>"
    )?;
    writeln!(
        svg,
        "<title>Times of splits and cut plans by objects</title>"
    )?;
    writeln!(svg, "<rect width='100%' height='100%' fill='#fff'/>")?;
    legend(svg)?;
    let decades = decades(figures);
    for (left, title, of) in PANELS {
        let panel = Panel { left, decades };
        panel.frame(svg, title)?;
        for side in SIDES {
            panel.lines(svg, figures, of, side)?;
        }
    }
    writeln!(svg, "</svg>")
}

/// The powers of ten, in nanoseconds, between which all times lie.
fn decades(figures: &[Figures]) -> [i32; 2] {
    let compared = figures.iter().flat_map(|input| [&input.split, &input.plan]);
    let spreads = compared.flat_map(|compared| SIDES.map(|side| (side.of)(compared)));
    let times = spreads.flat_map(|spread| spread.quartiles);
    let logs = times.map(|time| nanoseconds(time).log10());
    let (least, greatest) = logs.fold((f64::MAX, 0.0), |(least, greatest), log| {
        (log.min(least), log.max(greatest))
    });
    [least.floor() as i32, greatest.ceil() as i32]
}

fn legend(svg: &mut String) -> fmt::Result {
    for (row, side) in SIDES.into_iter().enumerate() {
        let y = 22.0 + 20.0 * row as f64;
        let mut x = PANELS[0].0;
        for (shape, colour) in COLOURS {
            line(svg, colour, side, &[(x, y), (x + 34.0, y)])?;
            dot(svg, colour, side, (x + 17.0, y), true)?;
            let name = format!("{}, {}", shape.name(), side.name);
            label(svg, (x + 42.0, y + 4.0), "start", &name)?;
            x += 180.0;
        }
        dot(svg, COLOURS[1].1, side, (x, y), false)?;
        let name = format!("33,003 links, {}", side.name);
        label(svg, (x + 10.0, y + 4.0), "start", &name)?;
    }
    Ok(())
}

/// One of the two plots.
struct Panel {
    left: f64,
    decades: [i32; 2],
}

impl Panel {
    fn x(&self, objects: f64) -> f64 {
        let part = (objects / LEAST_OBJECTS).ln() / (MOST_OBJECTS / LEAST_OBJECTS).ln();
        self.left + PANEL_WIDTH * part
    }

    fn y(&self, nanoseconds: f64) -> f64 {
        let [least, greatest] = self.decades.map(f64::from);
        let part = (nanoseconds.log10() - least) / (greatest - least);
        PANEL_TOP + PANEL_HEIGHT * (1.0 - part)
    }

    fn point(&self, input: &Figures, time: Duration) -> (f64, f64) {
        (self.x(input.objects().into()), self.y(nanoseconds(time)))
    }

    /// The frame with its grid, numbers and names.
    fn frame(&self, svg: &mut String, title: &str) -> fmt::Result {
        let bottom = PANEL_TOP + PANEL_HEIGHT;
        let right = self.left + PANEL_WIDTH;
        for power in self.decades[0]..=self.decades[1] {
            let y = self.y(10f64.powi(power));
            rule(svg, (self.left, y), (right, y))?;
            label(svg, (self.left - 8.0, y + 4.0), "end", &time_name(power))?;
        }
        for objects in [300, 1_000, 10_000, 65_536] {
            let x = self.x(objects.into());
            rule(svg, (x, PANEL_TOP), (x, bottom))?;
            let name = thousands(objects as usize);
            label(svg, (x, bottom + 18.0), "middle", &name)?;
        }
        writeln!(
            svg,
            "<rect x='{}' y='{PANEL_TOP}' width='{PANEL_WIDTH}' height='{PANEL_HEIGHT}' fill='none' stroke='#888'/>",
            self.left
        )?;
        let middle = self.left + PANEL_WIDTH / 2.0;
        label(svg, (middle, bottom + 40.0), "middle", "objects")?;
        writeln!(
            svg,
            "<text x='{middle:.1}' y='{:.1}' text-anchor='middle' font-size='15'>{title}</text>",
            PANEL_TOP - 14.0
        )
    }

    /// Medians of one side, those that grow joined by lines, and quartiles as bars.
    fn lines(&self, svg: &mut String, figures: &[Figures], of: Of, side: Side) -> fmt::Result {
        for (shape, colour) in COLOURS {
            let is_of = |input: &&Figures| {
                input.shape == shape && input.order == Order::Made && !input.has_orders
            };
            let inputs = figures.iter().filter(is_of);
            let spread = |input| (side.of)(of(input));
            let grow = inputs.clone().filter(|input| input.grows);
            let points = grow.map(|input| self.point(input, spread(input).median()));
            line(svg, colour, side, &points.collect::<Vec<_>>())?;
            for input in inputs {
                let [low, median, high] = spread(input).quartiles;
                let [(x, low), (_, high)] = [low, high].map(|time| self.point(input, time));
                writeln!(
                    svg,
                    "<path d='M{x:.1} {low:.1}V{high:.1}' stroke='{colour}' stroke-width='5' opacity='0.35'/>"
                )?;
                dot(svg, colour, side, self.point(input, median), input.grows)?;
            }
        }
        Ok(())
    }
}

fn nanoseconds(time: Duration) -> f64 {
    time.as_nanos() as f64
}

/// A power of ten of nanoseconds.
fn time_name(power: i32) -> String {
    let unit = ["ns", "µs", "ms", "s"][(power / 3) as usize % 4];
    format!("{} {unit}", 10u32.pow((power % 3) as u32))
}

fn line(svg: &mut String, colour: &str, side: Side, points: &[(f64, f64)]) -> fmt::Result {
    let dashes = if side.is_dashed { "6 4" } else { "none" };
    let points: Vec<String> = points
        .iter()
        .map(|(x, y)| format!("{x:.1},{y:.1}"))
        .collect();
    writeln!(
        svg,
        "<polyline points='{}' fill='none' stroke='{colour}' stroke-width='2' stroke-dasharray='{dashes}'/>",
        points.join(" ")
    )
}

/// A point: filled where it is ours; a circle where inputs grow, else a square on its corner.
fn dot(svg: &mut String, colour: &str, side: Side, at: (f64, f64), is_round: bool) -> fmt::Result {
    let (x, y) = at;
    let fill = if side.is_dashed { "#fff" } else { colour };
    let ink = format!("fill='{fill}' stroke='{colour}' stroke-width='2'");
    if is_round {
        return writeln!(svg, "<circle cx='{x:.1}' cy='{y:.1}' r='4' {ink}/>");
    }
    let (left, top) = (x - 4.0, y - 4.0);
    writeln!(
        svg,
        "<rect x='{left:.1}' y='{top:.1}' width='8' height='8' {ink} transform='rotate(45 {x:.1} {y:.1})'/>"
    )
}

fn rule(svg: &mut String, from: (f64, f64), to: (f64, f64)) -> fmt::Result {
    let ((x1, y1), (x2, y2)) = (from, to);
    writeln!(
        svg,
        "<path d='M{x1:.1} {y1:.1}L{x2:.1} {y2:.1}' stroke='#ddd'/>"
    )
}

fn label(svg: &mut String, (x, y): (f64, f64), anchor: &str, text: &str) -> fmt::Result {
    writeln!(
        svg,
        "<text x='{x:.1}' y='{y:.1}' text-anchor='{anchor}'>{text}</text>"
    )
}
