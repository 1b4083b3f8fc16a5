//! Tables before and after a split, as a table and as bars.

use super::{
    bars::Bars,
    failure::Failure,
    limits,
    look::Look,
    screen::Screen,
    text::{counted, grouped, listed, or_dash, plural, wrapped},
};
use splitter::{store_file::Table, Edition, Fit, Kind, StoreRef};
use std::ops::Range;

/// So many rows and bars are shown, unless all are asked for.
const MOST_ROWS: usize = 24;

/// A table as it was: what it is, and where it is cut.
pub struct Before {
    look: Look,
    edition: Edition,
    cuts: Vec<u16>,
    pieces: Vec<Range<usize>>,
    piece_bytes: Vec<usize>,
    /// What the tables would take that the cuts make.
    pub fits: Vec<Fit>,
}

/// The tables that came of one, kept and new in order.
pub struct After {
    /// The tables.
    pub tables: Vec<Table>,
    looks: Vec<Look>,
    /// What they take.
    pub fits: Vec<Fit>,
}

/// How much is shown.
#[derive(Clone, Copy, Debug, PartialEq, Eq)]
pub enum Amount {
    /// Long lists without their middle.
    Some,
    /// All there is.
    All,
}

impl After {
    /// The tables as they are.
    pub fn of(store: StoreRef, tables: Vec<Table>) -> Self {
        let looks = tables.iter().filter_map(|&table| Look::at(store, table));
        Self {
            looks: looks.collect(),
            fits: limits::of_tables(store, &tables),
            tables,
        }
    }
}

impl Before {
    /// A table as it is, and where an edition cuts it.
    pub fn new(store: StoreRef, table: Table, edition: Edition, cuts: Vec<u16>) -> Option<Self> {
        let look = Look::at(store, table)?;
        let pieces = look.pieces(&cuts);
        let fits = table.kind.fits_at(store, table.number, &cuts);
        Some(Self {
            piece_bytes: look.piece_bytes(store, &pieces),
            look,
            edition,
            cuts,
            pieces,
            fits: fits.unwrap_or_default(),
        })
    }

    /// What the table is, and where it is cut, in words.
    pub fn describe(&self, screen: &mut Screen, amount: Amount) -> Result<(), Failure> {
        let look = &self.look;
        let number = look.table.number;
        if !look.is_split() {
            let split = match look.table.kind {
                Kind::Pairs => "only formats 1 and 2 are split",
                Kind::Marks => "only format 1 of mark-to-base tables is split",
            };
            return screen.line(&format!(
                "Table {number} has format {}: {split}.",
                look.format
            ));
        }
        let sentence = format!(
            "Table {number}: {}; {} bytes with all that it leads to.",
            in_words(look),
            grouped(look.all_bytes),
        );
        screen.lines(&wrapped(&sentence, 0))?;
        screen.lines(&wrapped(&self.cut_sentence(amount), 0))
    }

    fn cut_sentence(&self, amount: Amount) -> String {
        let name = self.look.item_name();
        let edition = self.edition.number();
        match self.cuts.len() {
            0 => match self.fits.first().filter(|fit| !fit.is_within()) {
                None => format!("It fits as it is: edition {edition} does not cut it."),
                Some(fit) => format!(
                    "Edition {edition} does not cut it. It takes {} bytes, past the limit: {}.",
                    grouped(fit.bytes),
                    limits::why(fit).unwrap_or_default(),
                ),
            },
            count => format!(
                "Edition {edition} cuts it at {} {}: {} in its place.",
                if count == 1 {
                    name.into()
                } else {
                    plural(name)
                },
                listed(&self.cuts, amount == Amount::All),
                counted(count + 1, "table"),
            ),
        }
    }

    /// Whether it is cut.
    pub fn is_cut(&self) -> bool {
        !self.cuts.is_empty()
    }

    fn label(&self) -> String {
        format!("old {}", self.look.table.number)
    }

    fn bars(&self, screen: &Screen) -> Bars {
        Bars::new(screen.style, self.piece_bytes.iter().sum())
    }

    /// The table as a bar, its pieces one behind the other, and whether each would be within the limit.
    pub fn show_bar(&self, screen: &mut Screen, amount: Amount) -> Result<(), Failure> {
        let bars = self.bars(screen);
        screen.line(&bars.bar(&self.label(), 0, &self.piece_bytes))?;
        screen.line(&bars.limit())?;
        self.show_limits(&self.fits, screen, amount)
    }

    /// Whether each of the tables is within the limit.
    fn show_limits(
        &self,
        fits: &[Fit],
        screen: &mut Screen,
        amount: Amount,
    ) -> Result<(), Failure> {
        for sentence in limits::sentences(&self.look, fits, amount) {
            screen.lines(&wrapped(&sentence, 0))?;
        }
        Ok(())
    }

    /// The tables that came of it, beside what it was, and what they take.
    pub fn show_after(
        &self,
        after: &After,
        screen: &mut Screen,
        amount: Amount,
    ) -> Result<(), Failure> {
        let After {
            tables,
            looks,
            fits,
        } = after;
        let label = |place: usize| match place {
            0 => format!("kept {}", tables[0].number),
            _ => format!("new {}", tables[place].number),
        };
        screen.line(headings(self.look.table.kind))?;
        screen.line(&row(&self.label(), &(0..self.look.items), &self.look))?;
        show_some(looks.len(), amount, screen, |place| {
            row(&label(place), &self.pieces[place], &looks[place])
        })?;
        screen.line("")?;
        let bars = self.bars(screen);
        screen.line(&bars.bar(&self.label(), 0, &self.piece_bytes))?;
        show_some(looks.len(), amount, screen, |place| {
            bars.bar(&label(place), place, &[looks[place].all_bytes])
        })?;
        screen.line(&bars.limit())?;
        if looks.iter().zip(fits).any(stands_last) {
            let note =
                "Some bytes are past the limit: in format 2 the largest of coverage and class \
                        definitions can stand last, and only its start has to be reached.";
            screen.lines(&wrapped(note, 0))?;
        }
        self.show_limits(fits, screen, amount)
    }
}

/// Whether a table is within the limit because its largest part is not counted.
fn stands_last((look, fit): (&Look, &Fit)) -> bool {
    look.all_bytes > Fit::LIMIT && fit.is_within()
}

/// What a table has, as far as it has a format that is split.
fn in_words(look: &Look) -> String {
    let format = look.format;
    let items = counted(look.items, look.item_name());
    let [first, second] = look.value_formats;
    let values = format!("value formats {first:04X} and {second:04X}");
    let glyphs = |what| format!("{} covered", counted(look.glyphs, what));
    match (look.table.kind, format) {
        (Kind::Pairs, 1) => format!("format 1, {items}, {}, {values}", glyphs("glyph")),
        (Kind::Pairs, _) => {
            let records = counted(look.columns, "record");
            let glyphs = glyphs("glyph");
            format!("format {format}, {items} of {records}, {glyphs}, {values}")
        }
        (Kind::Marks, _) => {
            let bases = counted(look.columns, "base");
            format!("mark-to-base, {items}, {}, {bases}", glyphs("mark"))
        }
    }
}

const fn headings(kind: Kind) -> &'static str {
    match kind {
        Kind::Pairs => {
            "  table      items        glyphs      bytes     itself coverage class 1 class 2"
        }
        Kind::Marks => {
            "  table      classes       marks      bytes     itself coverage   marks   bases"
        }
    }
}

fn row(label: &str, items: &Range<usize>, look: &Look) -> String {
    let items = match items.len() {
        0 => "none".into(),
        _ => format!("{}-{}", items.start, items.end - 1),
    };
    let [first, second] = look.parts.map(or_dash);
    format!(
        "  {label:<11}{items:<12}{:>7}{:>11}{:>11}{:>9}{first:>8}{second:>8}",
        grouped(look.glyphs),
        grouped(look.all_bytes),
        grouped(look.own_bytes),
        or_dash(look.coverage),
    )
}

/// Shows a line for each of so many, or for the first ones and the last.
fn show_some(
    count: usize,
    amount: Amount,
    screen: &mut Screen,
    line: impl Fn(usize) -> String,
) -> Result<(), Failure> {
    let left_out = match amount {
        Amount::Some if count > MOST_ROWS => MOST_ROWS - 1..count - 1,
        _ => count..count,
    };
    for place in 0..count {
        if place == left_out.start {
            let more = counted(left_out.len(), "more table");
            screen.line(&format!("  .. {more} (--all shows them)"))?;
        }
        if !left_out.contains(&place) {
            screen.line(&line(place))?;
        }
    }
    Ok(())
}
