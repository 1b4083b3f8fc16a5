//! The lookups of a font: which subtables each lists, and what a split would make of them.

use super::{hung, Seen};
use crate::command::{
    failure::Failure,
    json::Json,
    screen::Screen,
    text::{grouped, listed},
    told,
};
use splitter::Kind;

/// The most subtables that a lookup counts.
const MOST_SUBTABLES: usize = 65_535;

/// Shows each lookup of a kind with its subtables.
pub fn show(all: &[Seen], screen: &mut Screen) -> Result<(), Failure> {
    screen.line("")?;
    screen.line("  lookup   kind  its subtables, and what a split would make of them")?;
    for lookup in by_lookup(all) {
        screen.lines(&lookup.lines())?;
    }
    Ok(())
}

/// The same, for programs.
pub fn told(all: &[Seen]) -> Json {
    Json::list(by_lookup(all).iter().map(Lookup::told))
}

/// A lookup, by its subtables of one kind in order: their numbers, and what was seen of them.
pub struct Lookup<'a> {
    number: usize,
    kind: Kind,
    subtables: Vec<(usize, &'a Seen)>,
}

/// The lookups of all subtables.
pub fn by_lookup(all: &[Seen]) -> Vec<Lookup<'_>> {
    let places = all.iter().flat_map(|seen| {
        let listed = seen.table.listed.iter();
        listed.map(move |place| (place.lookup, seen.table.kind, place.subtable, seen))
    });
    let mut places: Vec<_> = places.collect();
    places.sort_by_key(|&(lookup, kind, subtable, _)| (lookup, kind, subtable));
    let lookups = places.chunk_by(|a, b| (a.0, a.1) == (b.0, b.1));
    lookups
        .map(|places| Lookup {
            number: places[0].0,
            kind: places[0].1,
            subtables: places.iter().map(|place| (place.2, place.3)).collect(),
        })
        .collect()
}

impl Lookup<'_> {
    fn lines(&self) -> Vec<String> {
        let kind = told::kind(self.kind);
        let start = format!("  {:>6}{kind:>7}", self.number);
        hung(&start, &self.words())
    }

    /// Its subtables, and then what would be listed in their place.
    pub fn words(&self) -> String {
        let numbers = self.subtables.iter().map(|&(number, _)| number as u16);
        let numbers: Vec<u16> = numbers.collect();
        format!("{}: {}", listed(&numbers, false), self.after_a_split())
    }

    /// How many subtables it would list.
    fn tables(&self) -> usize {
        self.subtables.iter().map(|(_, seen)| seen.tables()).sum()
    }

    /// How many of its subtables are refused.
    fn refused(&self) -> usize {
        let refused = self.subtables.iter().filter(|(_, seen)| seen.cuts.is_err());
        refused.count()
    }

    fn after_a_split(&self) -> String {
        let becomes = |(number, seen): &(usize, &Seen)| {
            let tables = seen.tables();
            (tables > 1).then(|| format!("{number} becomes {}", grouped(tables)))
        };
        let cut: Vec<String> = self.subtables.iter().filter_map(becomes).collect();
        let tables = self.tables();
        match (self.refused(), cut.len()) {
            (refused @ 1.., _) => format!("refused, {refused} of {}", self.subtables.len()),
            (_, 0) => "as they are".into(),
            _ if tables > MOST_SUBTABLES => {
                format!("refused, {} are too many", grouped(tables))
            }
            _ => format!("{} in their place, {}", grouped(tables), some(&cut)),
        }
    }

    fn told(&self) -> Json {
        let subtables = self.subtables.iter().map(|&(number, seen)| {
            Json::object([
                ("subtable", number.into()),
                (
                    "tables",
                    seen.cuts.as_ref().ok().map(|_| seen.tables()).into(),
                ),
            ])
        });
        Json::object([
            ("lookup", self.number.into()),
            ("kind", told::kind(self.kind).into()),
            ("subtables", Json::list(subtables)),
        ])
    }
}

/// Words with commas between them: where there are many, the first ones.
fn some(words: &[String]) -> String {
    const MOST: usize = 8;
    match words.get(..MOST) {
        Some(first) if words.len() > MOST => format!("{}, ..", first.join(", ")),
        _ => words.join(", "),
    }
}
