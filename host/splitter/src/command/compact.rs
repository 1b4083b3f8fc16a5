//! `splitter compact`: a store file without what its tables do not lead to.

use super::{
    arguments::{Compact, Name},
    failure::{Failure, What},
    files,
    json::Json,
    outcome::Outcome,
    report::Amount,
    screen::Screen,
    text::{amounts, counted, grouped, in_use, order_only, shown, wrapped},
    told,
};
use splitter::{
    explain_compaction,
    store_file::{StoreFile, Table},
    Compacted, Refusal, Room, Store,
};
use std::collections::BTreeMap;

/// So many roots are shown, unless all are asked for.
const MOST_ROOTS: usize = 24;

/// Keeps what the tables of a store file lead to, and other roots, and writes the store.
pub fn run(request: &Compact, screen: &mut Screen) -> Result<Outcome, Failure> {
    let input = &request.file;
    let output = files::output(input, &request.output)?;
    let file = files::read_store(input)?;
    if file.tables().is_empty() && request.roots.is_empty() {
        let sentence = "it lists no table, so nothing would be left: name roots, by --root";
        return Err(files::about(input, sentence));
    }
    screen.hold();
    screen.heading(&format!(
        "{}: {}",
        shown(input),
        in_use(file.store().view())
    ))?;
    let (mut store, mut tables) = file.into_parts();
    let compaction = Compaction::of(&mut store, &mut tables, &request.roots);
    let compaction =
        compaction.map_err(|refusal| refused(&store, &request.roots, refusal).at(input))?;
    screen.line("")?;
    compaction.show(request.amount(), screen)?;
    let file = StoreFile::new(store, tables).map_err(|error| files::about(output, error))?;
    let bytes = files::write_store(output, &file, screen)?;

    let first = [
        ("output", told::path(output)),
        ("bytes", bytes.into()),
        ("store", told::store(file.store().view())),
        ("tables", told::tables(file.tables())),
    ];
    let values = first.into_iter().chain(compaction.told()).collect();
    let outcome = Outcome::Done;
    screen.json(&told::answer(Name::Compact, outcome, input, values))?;
    Ok(outcome)
}

/// A root that is not in use: the tables that a file lists are.
fn refused(store: &Store, roots: &[u32], refusal: Refusal) -> Failure {
    let [_, objects, _] = store.view().counts();
    let root = roots.iter().find(|&&root| root >= objects);
    let what = root.map_or(What::Store, |&root| What::Root(root));
    Failure::refused(what, refusal, explain_compaction(store, roots))
}

impl Compact {
    fn amount(&self) -> Amount {
        match self.all {
            true => Amount::All,
            false => Amount::Some,
        }
    }
}

/// What came of a compaction.
pub struct Compaction {
    /// The new number of each root, by its old one.
    pub numbers: BTreeMap<u32, u32>,
    /// How many roots are tables, and how many are others.
    roots: [usize; 2],
    gone: Room,
    /// How many of the links that are gone were order-only.
    order_only: usize,
    /// What is left in use, in words, and how many bytes of it moved.
    left: String,
    moved: usize,
}

impl Compaction {
    /// Keeps what tables and other roots lead to. The tables get their new numbers.
    pub fn of(store: &mut Store, tables: &mut [Table], others: &[u32]) -> Result<Self, Refusal> {
        let listed = tables.iter().map(|table| table.number);
        let old: Vec<u32> = listed.chain(others.iter().copied()).collect();
        let orders = order_only(store.view());
        let Compacted {
            roots,
            freed,
            moved,
        } = store.compact(&old)?;
        for (table, &number) in tables.iter_mut().zip(&roots) {
            table.number = number;
        }
        let numbers: BTreeMap<u32, u32> = old.into_iter().zip(roots).collect();
        Ok(Self {
            roots: [tables.len(), numbers.len() - tables.len()],
            numbers,
            gone: freed,
            order_only: orders - order_only(store.view()),
            left: in_use(store.view()),
            moved,
        })
    }

    /// Says what is kept and what is gone, and which roots have other numbers now.
    pub fn show(&self, amount: Amount, screen: &mut Screen) -> Result<(), Failure> {
        let [tables, others] = self.roots;
        let roots = match (counted(tables, "table"), counted(others, "object")) {
            (tables, _) if others == 0 => tables,
            (_, others) if tables == 0 => others,
            (tables, others) => format!("{tables}, {others} more"),
        };
        let gone = match self.gone {
            Room {
                data: 0,
                objects: 0,
                links: 0,
            } => "nothing".into(),
            Room {
                data,
                objects,
                links,
            } => amounts([objects, links, self.order_only, data]),
        };
        for sentence in [
            format!("Kept: {roots}, and all that they lead to."),
            format!("Gone: {gone}."),
            format!(
                "Left: {}; {} moved.",
                self.left,
                counted(self.moved, "byte")
            ),
        ] {
            screen.lines(&wrapped(&sentence, 0))?;
        }
        self.show_numbers(amount, screen)
    }

    fn show_numbers(&self, amount: Amount, screen: &mut Screen) -> Result<(), Failure> {
        let changed = self.numbers.iter().filter(|(was, is)| was != is);
        let changed: Vec<(&u32, &u32)> = changed.collect();
        if changed.is_empty() {
            return screen.line("All roots keep their numbers.");
        }
        let most = match amount {
            Amount::Some if changed.len() > MOST_ROOTS => MOST_ROOTS - 1,
            _ => changed.len(),
        };
        screen.line("")?;
        screen.line("   root was          is")?;
        for (was, is) in &changed[..most] {
            let [was, is] = [was, is].map(|number| grouped(**number as usize));
            screen.line(&format!("  {was:>9}{is:>12}"))?;
        }
        match changed.len() - most {
            0 => Ok(()),
            more => {
                let more = counted(more, "more root");
                screen.line(&format!("  .. {more} (--all shows them)"))
            }
        }
    }

    /// The same, for programs.
    pub fn told(&self) -> told::Values {
        let roots = self.numbers.iter();
        let roots =
            roots.map(|(&was, &is)| Json::object([("root", is.into()), ("was", was.into())]));
        let order_only = Some(self.order_only).filter(|&count| count > 0);
        vec![
            ("roots", Json::list(roots)),
            (
                "gone",
                Json::object([
                    ("objects", self.gone.objects.into()),
                    ("links", self.gone.links.into()),
                    ("order_only", order_only.into()),
                    ("data", self.gone.data.into()),
                ]),
            ),
            ("moved", self.moved.into()),
        ]
    }
}
