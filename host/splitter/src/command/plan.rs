//! `splitter plan`: where tables would be cut.

use super::{
    arguments::{Name, Plan},
    failure::{advice, refusal_in_words, Failure},
    files,
    json::Json,
    limits,
    look::Look,
    outcome::Outcome,
    report::{Amount, Before},
    screen::Screen,
    text::{counted, in_use, shown, wrapped},
    told,
};
use splitter::{
    store_file::{StoreFile, Table},
    Edition, Explanation, Kind, Refusal, Scratch, Store,
};

/// Shows where the tables of a store file would be cut.
pub fn run(request: &Plan, screen: &mut Screen) -> Result<Outcome, Failure> {
    screen.style.unicode &= !request.ascii;
    let file = files::read_store(&request.file)?;
    let tables = request.tables(&file)?;
    request.head(&file, screen)?;
    let mut scratch = Scratch::new();
    let planned = tables.into_iter();
    let planned =
        planned.map(|table| Planned::of(file.store(), table, request.edition, &mut scratch));
    let planned: Vec<Planned> = planned.collect();
    let refused = planned.iter().filter(|table| table.cuts.is_err()).count();
    let outcome = Outcome::of_plan(refused > 0, planned.iter().any(Planned::is_cut));
    screen.json(&told::answer(
        Name::Plan,
        outcome,
        &request.file,
        vec![
            ("edition", request.edition.number().into()),
            ("store", told::store(file.store().view())),
            (
                "tables",
                planned.iter().map(Planned::told).collect::<Vec<_>>().into(),
            ),
        ],
    ))?;
    if let [Planned {
        table,
        cuts: Err(refusal),
        explanation,
        ..
    }] = &planned[..]
    {
        let refused = Failure::refused(table.number, *refusal, explanation.clone());
        return Err(refused.at(&request.file));
    }
    for planned in &planned {
        screen.line("")?;
        planned.show(request.amount(), screen)?;
    }
    match refused {
        0 => Ok(outcome),
        _ => Err(some_refused(&planned, request)),
    }
}

/// How many are refused, and what each refusal means.
fn some_refused(planned: &[Planned], request: &Plan) -> Failure {
    let refused = || planned.iter().filter_map(|it| it.cuts.as_ref().err());
    let tables = counted(planned.len(), "table");
    let file = shown(&request.file);
    let sentence = format!("{file}: {} of {tables} are refused", refused().count());
    let by = Refusal::ALL
        .into_iter()
        .filter(|by| refused().any(|it| it == by));
    let sentences = [sentence].into_iter().chain(by.map(advice));
    Failure::SomeRefused(sentences.collect())
}

/// A table, and where it would be cut or why it is refused.
struct Planned {
    table: Table,
    look: Option<Look>,
    cuts: Result<Vec<u16>, Refusal>,
    /// What is shown of a table that is not refused.
    before: Option<Before>,
    explanation: Explanation,
}

impl Planned {
    fn of(store: &Store, table: Table, edition: Edition, scratch: &mut Scratch) -> Self {
        let Table { number, kind } = table;
        let cuts = kind.cut_plan(store, number, edition, scratch);
        let before = cuts.as_ref().ok().cloned();
        Self {
            table,
            look: Look::at(store.view(), table),
            before: before.and_then(|cuts| Before::new(store.view(), table, edition, cuts)),
            explanation: match cuts {
                Ok(_) => Explanation::default(),
                Err(_) => kind.explain(store, number),
            },
            cuts,
        }
    }

    fn is_cut(&self) -> bool {
        self.cuts.as_ref().is_ok_and(|cuts| !cuts.is_empty())
    }

    fn show(&self, amount: Amount, screen: &mut Screen) -> Result<(), Failure> {
        match &self.cuts {
            Ok(_) => match &self.before {
                Some(before) => show(before, amount, screen),
                None => Ok(()),
            },
            Err(refusal) => {
                let words = refusal_in_words(self.table.number, *refusal, &self.explanation);
                screen.lines(&wrapped(&words, 0))
            }
        }
    }

    fn told(&self) -> Json {
        let mut values = told::table(self.table, self.look.as_ref());
        values.push(match &self.cuts {
            Ok(cuts) => ("cuts", Json::list(cuts.iter().copied())),
            Err(refusal) => ("refused", told::refused(*refusal, &self.explanation)),
        });
        let fits = self.before.as_ref().map_or(&[][..], |before| &before.fits);
        values.push(("results", limits::told(fits, &[])));
        Json::object(values)
    }
}

/// Shows where a table would be cut.
fn show(before: &Before, amount: Amount, screen: &mut Screen) -> Result<(), Failure> {
    before.describe(screen, amount)?;
    if before.is_cut() {
        screen.line("")?;
        before.show_bar(screen, amount)?;
    }
    Ok(())
}

impl Plan {
    /// The table that was asked for, or those that the file lists. What they are for the words say, or
    /// the file; a table that it does not list is for pairs.
    pub fn tables(&self, file: &StoreFile) -> Result<Vec<Table>, Failure> {
        let mut tables = match (self.table, file.tables()) {
            (Some(number), listed) => {
                let listed = listed.iter().find(|table| table.number == number);
                vec![listed.copied().unwrap_or(Table::pairs(number))]
            }
            (None, []) => {
                return Err(files::about(
                    &self.file,
                    "it lists no table: say which one, by its number behind the file's name",
                ));
            }
            (None, tables) => tables.to_vec(),
        };
        if self.marks {
            tables.iter_mut().for_each(|table| table.kind = Kind::Marks);
        }
        Ok(tables)
    }

    /// How much is shown.
    pub fn amount(&self) -> Amount {
        match self.all {
            true => Amount::All,
            false => Amount::Some,
        }
    }

    /// Says what the file holds.
    pub fn head(&self, file: &StoreFile, screen: &mut Screen) -> Result<(), Failure> {
        screen.heading(&format!(
            "{}: {}",
            shown(&self.file),
            in_use(file.store().view())
        ))
    }
}
