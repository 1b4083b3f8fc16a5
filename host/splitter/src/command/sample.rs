//! `splitter sample`: four stores that are there to be tried.

mod lookups;
mod marks;
mod rows;
mod sets;
mod words;

use super::{
    arguments::{Sample, Which},
    failure::{Failure, What},
    files, lookups as in_lookups,
    outcome::Outcome,
    report::Amount,
    screen::Screen,
    split::Piece,
    text::{shown, wrapped},
};
use splitter::{
    store_file::{StoreFile, Table},
    Edition, Explanation, Refusal, Scratch, Store,
};
use std::{fs, path::Path};

/// A store, and the table in it that is too large.
struct Example {
    title: &'static str,
    file_name: &'static str,
    store: Store,
    table: Table,
    /// The lookup list in which new tables are entered.
    list: Option<u32>,
}

/// Splits the samples and shows what comes of it, or writes them.
pub fn run(request: &Sample, screen: &mut Screen) -> Result<Outcome, Failure> {
    screen.style.unicode &= !request.ascii;
    let examples = examples(request.which)
        .map_err(|refusal| Failure::refused(What::Store, refusal, Explanation::default()))?;
    match &request.directory {
        Some(directory) => write(examples, directory, screen),
        None => show(examples, request.edition, screen),
    }?;
    Ok(Outcome::Done)
}

/// The sample that is asked for, or all of them.
fn examples(which: Option<Which>) -> Result<Vec<Example>, Refusal> {
    match which {
        Some(which) => Ok(vec![example(which)?]),
        None => [Which::Sets, Which::Rows, Which::Marks, Which::Lookups]
            .into_iter()
            .map(example)
            .collect(),
    }
}

fn example(which: Which) -> Result<Example, Refusal> {
    let mut list = None;
    let (title, file_name, (store, number)) = match which {
        Which::Sets => (
            "Sample 1 of 4: a table of pair sets, for glyph before glyph",
            "sample1.krns",
            sets::store()?,
        ),
        Which::Rows => (
            "Sample 2 of 4: a table of rows, for class before class",
            "sample2.krns",
            rows::store()?,
        ),
        Which::Marks => (
            "Sample 3 of 4: a table of anchors, for mark on base",
            "sample3.krns",
            marks::store()?,
        ),
        Which::Lookups => {
            let (store, table, of_lookups) = lookups::store()?;
            list = Some(of_lookups);
            (
                "Sample 4 of 4: a table of pair sets, the first of two in a lookup",
                "sample4.krns",
                (store, table),
            )
        }
    };
    let table = match which {
        Which::Sets | Which::Rows | Which::Lookups => Table::pairs(number),
        Which::Marks => Table::marks(number),
    };
    Ok(Example {
        title,
        file_name,
        store,
        table,
        list,
    })
}

fn show(examples: Vec<Example>, edition: Edition, screen: &mut Screen) -> Result<(), Failure> {
    let mut scratch = Scratch::new();
    for (place, example) in examples.into_iter().enumerate() {
        if place > 0 {
            screen.line("")?;
        }
        screen.heading(example.title)?;
        screen.line("")?;
        let (mut store, table) = (example.store, example.table);
        match example.list {
            None => {
                let old = store.clone();
                let mut piece = Piece::split(&mut store, table, edition, &mut scratch)?;
                piece.show(Amount::Some, screen)?;
                screen.flush()?;
                piece.check(&old, &store)?;
                piece.show_check(screen)?;
            }
            Some(list) => {
                let table = table.number;
                in_lookups::show(&mut store, list, table, edition, &mut scratch, screen)?;
            }
        }
    }
    screen.line("")?;
    let files =
        "\"splitter sample -o DIR\" writes such stores as files, for plan, split, pair and mark.";
    screen.lines(&wrapped(files, 0))
}

fn write(examples: Vec<Example>, directory: &Path, screen: &mut Screen) -> Result<(), Failure> {
    fs::create_dir_all(directory).map_err(|error| {
        files::about(directory, format!("the directory cannot be made: {error}"))
    })?;
    for example in examples {
        let path = directory.join(example.file_name);
        let file = StoreFile::new(example.store, vec![example.table])
            .map_err(|error| files::about(&path, error))?;
        files::write(&path, &file.to_bytes())?;
        screen.line(&format!("Wrote {}.", shown(&path)))?;
    }
    Ok(())
}

#[cfg(test)]
mod tests;
