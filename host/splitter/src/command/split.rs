//! `splitter split`: a store file with tables split.

use super::{
    arguments::{Name, Split},
    compact::Compaction,
    failure::{Failure, What},
    files,
    json::Json,
    limits,
    look::Look,
    outcome::Outcome,
    readings::{self, Compared},
    report::{After, Amount, Before},
    screen::Screen,
    told,
};
use splitter::{
    explain::{Call, Lent},
    store_file::{StoreFile, Table},
    Edition, Explanation, Refusal, Room, Scratch, Store,
};

/// Splits the tables of a store file, and writes the store. What came of it is said once it is written.
pub fn run(request: &Split, screen: &mut Screen) -> Result<Outcome, Failure> {
    screen.style.unicode &= !request.plan.ascii;
    let (input, amount) = (&request.plan.file, request.plan.amount());
    let output = files::output(input, &request.output)?;
    let file = files::read_store(input)?;
    let tables = request.plan.tables(&file)?;
    screen.hold();
    request.plan.head(&file, screen)?;

    let (mut store, mut listed) = file.into_parts();
    let [_, old_objects, _] = store.view().counts();
    let mut scratch = Scratch::new();
    let mut pieces = Vec::new();
    for &table in &tables {
        let piece = split(&mut store, table, request, &mut scratch);
        let piece = piece.map_err(|failure| failure.at(input))?;
        list(&mut listed, &piece.after.tables);
        pieces.push(piece);
    }
    let compaction = request
        .compact
        .then(|| compact(&mut store, &mut listed, &mut pieces, old_objects));
    let compaction = compaction.transpose()?;
    for piece in &pieces {
        screen.line("")?;
        piece.show(amount, screen)?;
        piece.show_check(screen)?;
    }
    if let Some(compaction) = &compaction {
        screen.line("")?;
        compaction.show(amount, screen)?;
    }
    let file = StoreFile::new(store, listed).map_err(|error| files::about(output, error))?;
    let bytes = files::write_store(output, &file, screen)?;

    let outcome = match pieces.iter().any(|piece| !piece.cuts.is_empty()) {
        true => Outcome::Split,
        false => Outcome::NothingToSplit,
    };
    let values = vec![
        ("edition", request.plan.edition.number().into()),
        ("output", told::path(output)),
        ("bytes", bytes.into()),
        ("store", told::store(file.store().view())),
        ("tables", Json::list(pieces.iter().map(Piece::told))),
        (
            "compacted",
            compaction.map(|it| Json::object(it.told())).into(),
        ),
    ];
    screen.json(&told::answer(Name::Split, outcome, input, values))?;
    Ok(outcome)
}

/// Splits a table, and reads all before and after where that was asked for.
fn split(
    store: &mut Store,
    table: Table,
    request: &Split,
    scratch: &mut Scratch,
) -> Result<Piece, Failure> {
    let old = request.check.then(|| store.clone());
    let mut piece = Piece::split(store, table, request.plan.edition, scratch)?;
    if let Some(old) = old {
        piece.check(&old, store)?;
    }
    Ok(piece)
}

/// New tables, which stand behind the kept one, are listed behind it too.
fn list(listed: &mut Vec<Table>, tables: &[Table]) {
    let place = listed.iter().position(|it| it.number == tables[0].number);
    let place = place.unwrap_or(listed.len());
    let end = listed.len().min(place + 1);
    listed.splice(place..end, tables.iter().copied());
}

/// Drops what no table leads to. Only the numbers of the file that is written are told: nobody has seen those
/// that the new tables had before.
fn compact(
    store: &mut Store,
    listed: &mut [Table],
    pieces: &mut [Piece],
    old_objects: u32,
) -> Result<Compaction, Failure> {
    let compaction = Compaction::of(store, listed, &[]);
    let mut compaction = compaction
        .map_err(|refusal| Failure::refused(What::Store, refusal, Explanation::default()))?;
    for table in pieces.iter_mut().flat_map(|it| &mut it.after.tables) {
        table.number = compaction.numbers[&table.number];
    }
    compaction.numbers.retain(|&was, _| was < old_objects);
    Ok(compaction)
}

/// What came of a table.
pub struct Piece {
    table: Table,
    edition: Edition,
    look: Option<Look>,
    cuts: Vec<u16>,
    before: Option<Before>,
    /// The kept table and the new ones.
    after: After,
    compared: Option<Compared>,
}

impl Piece {
    /// Splits a table.
    pub fn split(
        store: &mut Store,
        table: Table,
        edition: Edition,
        scratch: &mut Scratch,
    ) -> Result<Self, Failure> {
        let Table { number, kind } = table;
        let cuts = kind.cut_plan(&*store, number, edition, scratch);
        let cuts = cuts.map_err(|refusal| refused(store, table, edition, refusal))?;
        let look = Look::at(store.view(), table);
        let before = Before::new(store.view(), table, edition, cuts.clone());
        let new_tables = kind.split(store, number, edition, scratch);
        let new_tables = new_tables.map_err(|refusal| refused(store, table, edition, refusal))?;
        let new_tables = new_tables.into_iter().map(|number| Table { number, kind });
        let tables = [table].into_iter().chain(new_tables).collect();
        Ok(Self {
            table,
            edition,
            look,
            cuts,
            before,
            after: After::of(store.view(), tables),
            compared: None,
        })
    }

    /// Reads all pairs or attachments before the split and after it.
    pub fn check(&mut self, old: &Store, new: &Store) -> Result<(), Failure> {
        let compared = readings::compare(old, self.table, new, &self.after.tables);
        let compared =
            compared.map_err(|refusal| refused(old, self.table, self.edition, refusal))?;
        self.compared = Some(compared);
        Ok(())
    }

    /// Shows the table, and what came of it.
    pub fn show(&self, amount: Amount, screen: &mut Screen) -> Result<(), Failure> {
        let Some(before) = &self.before else {
            return Ok(());
        };
        before.describe(screen, amount)?;
        if before.is_cut() {
            screen.line("")?;
            before.show_after(&self.after, screen, amount)?;
        }
        Ok(())
    }

    /// Shows that all read as before, if it was checked.
    pub fn show_check(&self, screen: &mut Screen) -> Result<(), Failure> {
        match &self.compared {
            Some(compared) => {
                screen.line("")?;
                compared.show(screen)
            }
            None => Ok(()),
        }
    }

    fn told(&self) -> Json {
        let After { tables, fits, .. } = &self.after;
        let mut values = told::table(self.table, self.look.as_ref());
        let new = tables[1..].iter().map(|table| table.number);
        values.extend([
            ("cuts", Json::list(self.cuts.iter().copied())),
            ("new_tables", Json::list(new)),
            ("results", limits::told(fits, tables)),
            ("check", self.compared.as_ref().map(Compared::told).into()),
        ]);
        Json::object(values)
    }
}

/// Why a table of a store is not split. Its store grows up to the maxima.
fn refused(store: &Store, table: Table, edition: Edition, refusal: Refusal) -> Failure {
    let mut store = store.clone();
    if refusal == Refusal::NoRoom {
        store.reserve(Room::MOST);
    }
    let call = Call::Split {
        edition: edition.number(),
        lent: Lent::ENOUGH,
    };
    let why = table.kind.explain_call(call, &store, table.number);
    Failure::refused(table.number, refusal, why)
}
