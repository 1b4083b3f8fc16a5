//! `splitter font`: the tables of a font for pairs and for marks on bases.

mod lookups;
#[cfg(test)]
mod tests;

use super::{
    arguments::{Font, Name},
    failure::{advice, Failure},
    files,
    json::Json,
    limits,
    look::Look,
    outcome::Outcome,
    progress::Progress,
    report::Amount,
    screen::Screen,
    text::{counted, grouped, listed, or_dash, shown, wrapped},
    told,
};
use splitter::{
    font::{FontError, FontTable, FontTables, Listed, OfKind, TABLE},
    store_file::{StoreFile, Table},
    Edition, Explanation, Fit, Kind, Refusal, Scratch,
};
use std::{
    fs,
    path::{Path, PathBuf},
};

/// Shows the tables of a font, and writes them as store files where that is asked for.
pub fn run(request: &Font, screen: &mut Screen) -> Result<Outcome, Failure> {
    let file = files::read_font(&request.file)?;
    let bad = |error: FontError| files::about(&request.file, error);
    let font = FontTables::read(&file).map_err(bad)?;
    let mut seen = see_all(&font, request.edition, &mut Scratch::new());
    if let Some(directory) = &request.directory {
        write_all(&font, &mut seen, directory)?;
    }
    let refused = seen.iter().filter(|seen| seen.cuts.is_err()).count();
    let outcome = Outcome::of_plan(refused > 0, seen.iter().any(Seen::is_cut));
    let tables: Vec<Json> = seen.iter().map(Seen::told).collect();
    let values = vec![
        ("edition", request.edition.number().into()),
        ("lookups", font.lookups.into()),
        ("tables", tables.into()),
        ("listings", lookups::told(&seen)),
    ];
    screen.json(&told::answer(Name::Font, outcome, &request.file, values))?;

    let name = shown(&request.file);
    if !font.has_gpos() {
        let none = "has no GPOS table, and so no tables for pairs or marks.";
        screen.line(&format!("{name} {none}"))?;
        return Ok(outcome);
    }
    screen.heading(&name)?;
    screen.lines(&wrapped(&in_words(&font), 0))?;
    if !seen.is_empty() {
        show(&seen, request.edition, screen)?;
    }
    if let Some(directory) = &request.directory {
        let count = seen.iter().filter(|seen| seen.file.is_some()).count();
        let files = counted(count, "store file");
        screen.line(&format!("Wrote {files} to {}.", shown(directory)))?;
    }
    match refused {
        0 => Ok(outcome),
        _ => {
            let tables = counted(seen.len(), "table");
            let sentence = format!("{name}: {refused} of {tables} are refused");
            Err(Failure::SomeRefused(vec![sentence]))
        }
    }
}

fn in_words(font: &FontTables) -> String {
    let of_kind = |of_kind: &OfKind| {
        let purpose = match of_kind.kind {
            Kind::Pairs => "pairs",
            Kind::Marks => "marks on bases",
        };
        let subtables = counted(of_kind.subtables, "subtable");
        format!("{} for {purpose}, with {subtables}", of_kind.lookups)
    };
    let [pairs, marks] = &font.of_kind;
    let all = counted(font.lookups, "lookup");
    format!("{all} in GPOS: {}; {}", of_kind(pairs), of_kind(marks))
}

/// A table, and what came of looking at it.
struct Seen {
    table: FontTable,
    look: Option<Look>,
    cuts: Result<Vec<u16>, FontError>,
    /// What the tables would take that the cuts make.
    fits: Vec<Fit>,
    explanation: Explanation,
    /// The store file that was written.
    file: Option<PathBuf>,
}

fn see_all(font: &FontTables, edition: Edition, scratch: &mut Scratch) -> Vec<Seen> {
    let mut progress = Progress::new("looking at tables");
    let see = |(done, table): (usize, &FontTable)| {
        progress.at(done as u64, font.tables.len() as u64);
        see(font, table, edition, scratch)
    };
    font.tables.iter().enumerate().map(see).collect()
}

fn see(font: &FontTables, table: &FontTable, edition: Edition, scratch: &mut Scratch) -> Seen {
    let mut seen = Seen {
        table: table.clone(),
        look: None,
        cuts: Ok(Vec::new()),
        fits: Vec::new(),
        explanation: Explanation::default(),
        file: None,
    };
    let kind = table.kind;
    let store = match font.load(table) {
        Ok(store) => store,
        Err(error) => {
            seen.cuts = Err(error);
            return seen;
        }
    };
    let number = TABLE;
    seen.look = Look::at(store.view(), Table { number, kind });
    seen.cuts = kind
        .cut_plan(&store, number, edition, scratch)
        .map_err(FontError::Store);
    match &seen.cuts {
        Ok(cuts) => seen.fits = kind.fits_at(&store, number, cuts).unwrap_or_default(),
        Err(_) => seen.explanation = kind.explain(&store, number),
    }
    seen
}

/// Writes a store file for each table that can be loaded.
fn write_all(font: &FontTables, seen: &mut [Seen], directory: &Path) -> Result<(), Failure> {
    fs::create_dir_all(directory).map_err(|error| {
        files::about(directory, format!("the directory cannot be made: {error}"))
    })?;
    let mut progress = Progress::new("writing tables");
    let count = seen.len() as u64;
    for (done, seen) in seen.iter_mut().enumerate() {
        progress.at(done as u64, count);
        let Ok(store) = font.load(&seen.table) else {
            continue;
        };
        let kind = seen.table.kind;
        let Listed { lookup, subtable } = seen.table.listed[0];
        let name = format!(
            "lookup{lookup}-subtable{subtable}-{}.krns",
            told::kind(kind)
        );
        let path = directory.join(name);
        let number = TABLE;
        let file = StoreFile::new(store, vec![Table { number, kind }]);
        let file = file.map_err(|error| files::about(&path, error))?;
        files::write(&path, &file.to_bytes())?;
        seen.file = Some(path);
    }
    Ok(())
}

fn show(all: &[Seen], edition: Edition, screen: &mut Screen) -> Result<(), Failure> {
    screen.line("")?;
    screen.line("  lookup subtable   kind  format      bytes   items  glyphs  cut places")?;
    for seen in all {
        screen.lines(&seen.lines())?;
    }
    lookups::show(all, screen)?;
    screen.line("")?;
    for refusal in Refusal::ALL {
        if all.iter().any(|seen| seen.is_refused_by(refusal)) {
            screen.lines(&wrapped(&format!("{}.", advice(refusal)), 0))?;
        }
    }
    screen.lines(&wrapped(&summary(all, edition), 0))
}

fn summary(all: &[Seen], edition: Edition) -> String {
    let why = "What is in a font fits its offsets already, so most tables have no cut places. But \
               the rule counts whole parts, where an offset only has to reach the start of one: a \
               table close to the limit can have them.";
    let tables = match all.iter().filter(|seen| seen.is_cut()).count() {
        0 => "No table".into(),
        1 => "One table".into(),
        count => counted(count, "table"),
    };
    let edition = edition.number();
    format!("{tables} would be cut by edition {edition}. {why}")
}

impl Seen {
    fn is_cut(&self) -> bool {
        self.cuts.as_ref().is_ok_and(|cuts| !cuts.is_empty())
    }

    fn is_refused_by(&self, refusal: Refusal) -> bool {
        self.cuts == Err(FontError::Store(refusal))
    }

    /// Its line; more of them where it is refused, has many cut places, or is listed more than once.
    fn lines(&self) -> Vec<String> {
        let Listed { lookup, subtable } = self.table.listed[0];
        let kind = told::kind(self.table.kind);
        let columns = self.look.as_ref().map(|look| self.columns(look));
        let columns = columns.unwrap_or_default();
        let start = format!("  {lookup:>6}{subtable:>9}{kind:>7}{columns}");
        let mut lines = hung(&start, &self.words());
        if let Some(fault) = self.explanation.fault() {
            lines.extend(wrapped(&fault.to_string(), 11));
        }
        lines.extend(self.past_the_limit());
        match self.table.listed.len() {
            0 | 1 => {}
            2 => lines.push("           listed once more".into()),
            listed => {
                let more = grouped(listed - 1);
                lines.push(format!("           listed {more} times more"));
            }
        }
        lines
    }

    /// Whether the tables that a split makes of it are within the limit, where one is not.
    fn past_the_limit(&self) -> Vec<String> {
        let Some(look) = self.look.as_ref() else {
            return Vec::new();
        };
        if self.fits.iter().all(Fit::is_within) {
            return Vec::new();
        }
        let sentences = limits::sentences(look, &self.fits, Amount::Some);
        let lines = sentences.iter().map(|sentence| wrapped(sentence, 11));
        lines.flatten().collect()
    }

    /// How many tables a split makes of it.
    fn tables(&self) -> usize {
        1 + self.cuts.as_ref().map_or(0, Vec::len)
    }

    /// How much there is of it. Of a coverage that cannot be read nobody knows the glyphs.
    fn columns(&self, look: &Look) -> String {
        let glyphs = (!self.is_refused_by(Refusal::BadParts)).then_some(look.glyphs);
        format!(
            "{:>8}{:>11}{:>8}{:>8}",
            look.format,
            grouped(look.all_bytes),
            grouped(look.items),
            or_dash(glyphs),
        )
    }

    /// Where it would be cut, or why it is refused.
    fn words(&self) -> String {
        match &self.cuts {
            Ok(_) if !self.look.as_ref().is_some_and(Look::is_split) => {
                "never: other format".into()
            }
            Ok(cuts) if cuts.is_empty() => "none".into(),
            Ok(cuts) => listed(cuts, false),
            Err(FontError::Store(refusal)) => format!("refused: {refusal:?}"),
            Err(error) => format!("refused: {error}"),
        }
    }

    fn told(&self) -> Json {
        let places = self.table.listed.iter().map(|listed| {
            Json::object([
                ("lookup", listed.lookup.into()),
                ("subtable", listed.subtable.into()),
            ])
        });
        let table = Table {
            number: TABLE,
            kind: self.table.kind,
        };
        let mut values = vec![("listed", Json::list(places))];
        values.extend(told::table(table, self.look.as_ref()));
        values.push(match &self.cuts {
            Ok(cuts) => ("cuts", Json::list(cuts.iter().copied())),
            Err(FontError::Store(refusal)) => {
                ("refused", told::refused(*refusal, &self.explanation))
            }
            Err(error) => ("damaged", error.to_string().into()),
        });
        values.push(("results", limits::told(&self.fits, &[])));
        values.push(("output", self.file.as_deref().map(told::path).into()));
        Json::object(values)
    }
}

/// Words behind the start of a line, and below one another.
fn hung(start: &str, words: &str) -> Vec<String> {
    let indent = start.chars().count() + 2;
    let mut lines = wrapped(words, indent);
    if let Some(first) = lines.first_mut() {
        *first = format!("{start}{}", &first[indent - 2..]);
    }
    lines
}
