//! The host library's count of what tables take, held to the model's.

use super::{ensure, opened, opened_marks, same, some_tables, Outcome, Split};
use crate::{
    explained::lent,
    model::{cuts::LIMIT, opened::Opened},
    Edition,
};
use oracle::Store;
use splitter::{Fit, Kind, Past};

/// Before a split and after it the library counts, of each table that the split leaves, what the model counts.
pub fn counted_alike(kind: Kind, split: &Split) -> Outcome {
    let (before, after) = (&split.before, &split.after);
    let told = kind.fits_at(lent(&before.store), before.table, &split.places);
    let told = told.ok_or("a table that is split is not counted")?;
    let tables = split.tables();
    ensure(told.len() == tables.len(), || "other tables".into())?;
    for table in some_tables(split) {
        let place = tables.iter().position(|&other| other == table);
        let told = &told[place.expect("one of the tables")];
        let fit = kind.fit(lent(&after.store), table);
        let fit = fit.ok_or_else(|| format!("table {table} is not counted"))?;
        let [items, bytes] = match kind {
            Kind::Pairs => count(&opened(&after.store, table)?),
            Kind::Marks => count(&opened_marks(&after.store, table)?),
        };
        let counts = [fit.items.len(), told.items.len(), fit.bytes, told.bytes];
        same("counts", &counts, &[items, items, bytes, bytes])?;
        same("why", &[fit.past], &[told.past])?;
        let why = fit.past;
        ensure(is_why(&fit, split), || format!("table {table}: {why:?}"))?;
    }
    Ok(())
}

fn count(table: &impl Opened) -> [usize; 2] {
    [table.item_count(), table.together()]
}

/// Whether a table of a split may be past the limit for that reason.
fn is_why(fit: &Fit, split: &Split) -> bool {
    let is_cut = !split.places.is_empty();
    let is_first = split.before.edition == Edition::First.number();
    let items = fit.items.len();
    let may_be = match fit.past {
        None => return fit.bytes < LIMIT,
        Some(Past::BaseCoverage | Past::OneItem) => is_first || !is_cut || items == 1,
        Some(Past::LongParts) => !is_cut,
        Some(Past::EmptySlots) => is_first && items > 1,
        Some(Past::Together) => is_first && is_cut && items > 1,
    };
    may_be && fit.bytes >= LIMIT
}

/// Whatever is asked of whatever object, it is counted somehow or not at all.
pub fn counted_somehow(store: &Store, table: u32) {
    for kind in Kind::ALL {
        for cuts in [&[][..], &[0], &[1], &[0, 1, 5], &[5, 1], &[u16::MAX]] {
            kind.fits_at(lent(store), table, cuts);
        }
    }
}
