//! Whether tables are within the limit, in words and for programs.

use super::{
    json::Json,
    look::Look,
    report::Amount,
    text::{counted, grouped, plural},
};
use splitter::{store_file::Table, Fit, Past, StoreRef};

/// So many tables that are past the limit are named, unless all are asked for.
const MOST_NAMED: usize = 8;

/// The tables as they stand in a store, each with its items as the old table numbers them: they follow one
/// another.
pub fn of_tables(store: StoreRef, tables: &[Table]) -> Vec<Fit> {
    let mut start = 0;
    let fit = |table: &Table| {
        let mut fit = table.kind.fit(store, table.number)?;
        let end = start + fit.items.len();
        fit.items = start..end;
        start = end;
        Some(fit)
    };
    tables.iter().filter_map(fit).collect()
}

/// Says of the tables that came of one, or would, whether each is within the limit, and why it is not.
pub fn sentences(look: &Look, fits: &[Fit], amount: Amount) -> Vec<String> {
    let (within, past): (Vec<&Fit>, Vec<&Fit>) = fits.iter().partition(|fit| fit.is_within());
    let most = match amount {
        Amount::All => past.len(),
        Amount::Some => MOST_NAMED,
    };
    let named = past.iter().take(most).map(|fit| past_the_limit(look, fit));
    let mut sentences: Vec<String> = named.collect();
    if let Some(left_out @ 1..) = past.len().checked_sub(most) {
        let more = counted(left_out, "more table");
        sentences.push(format!("Past the limit: {more}."));
    }
    if let Some(largest) = within.iter().map(|fit| fit.bytes).max() {
        let tables = match (within.len(), past.len()) {
            (2, 0) => "both tables".into(),
            (count, 0) => format!("all {}", counted(count, "table")),
            (1, _) => "the other table".into(),
            (count, _) => format!("the other {}", counted(count, "table")),
        };
        let [limit, largest] = [Fit::LIMIT, largest].map(grouped);
        sentences.push(format!(
            "Within the limit of {limit} bytes: {tables}, of {largest} bytes at most."
        ));
    }
    sentences
}

fn past_the_limit(look: &Look, fit: &Fit) -> String {
    let name = look.item_name();
    let [first, last] = [fit.items.start, fit.items.end.saturating_sub(1)].map(grouped);
    let items = match fit.items.len() {
        0 => format!("no {name}"),
        1 => format!("{name} {first}"),
        _ => format!("{} {first} to {last}", plural(name)),
    };
    let bytes = grouped(fit.bytes);
    let why = why(fit).unwrap_or_default();
    format!("Past the limit: {items}, {bytes} bytes: {why}.")
}

/// Why a table is past the limit, if it is.
pub fn why(fit: &Fit) -> Option<&'static str> {
    fit.past.map(|past| match past {
        Past::BaseCoverage => "its base coverage is too long by itself",
        Past::OneItem => "a single item is too large by itself",
        Past::LongParts => "a split would write its parts shorter, and there is nothing to cut",
        Past::EmptySlots => "edition 1 counts nothing for empty slots",
        Past::Together => "edition 1 does not measure what the item at the cut shares",
    })
}

/// The same, for programs; nothing of a table that is never split. Of tables that are not there yet nobody
/// knows the numbers.
pub fn told(fits: &[Fit], tables: &[Table]) -> Json {
    if fits.is_empty() {
        return Json::Null;
    }
    let told = fits.iter().enumerate().map(|(place, fit)| {
        Json::object([
            ("table", tables.get(place).map(|table| table.number).into()),
            ("first", fit.items.start.into()),
            ("items", fit.items.len().into()),
            ("counted", fit.bytes.into()),
            ("within", fit.is_within().into()),
            ("why", why(fit).into()),
        ])
    });
    Json::list(told)
}
