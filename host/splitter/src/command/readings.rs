//! Pairs and attachments before a split and after it.

use super::{
    failure::Failure,
    json::Json,
    look::Look,
    progress::Progress,
    screen::Screen,
    text::{counted, grouped, plural, wrapped},
};
use splitter::{
    explain::Call,
    read_mark, read_pair,
    store_file::{StoreFile, Table},
    Attachment, Kind, PairValues, Refusal, Store,
};

/// What a table says of two glyphs.
#[derive(Clone, Copy, Debug, PartialEq, Eq)]
enum Reading {
    Pair(PairValues),
    Attachment(Attachment),
}

impl Reading {
    fn read(
        store: &Store,
        table: Table,
        [first, second]: [u16; 2],
    ) -> Result<Option<Self>, Refusal> {
        let number = table.number;
        Ok(match table.kind {
            Kind::Pairs => read_pair(store, number, first, second)?.map(Self::Pair),
            Kind::Marks => read_mark(store, number, first, second)?.map(Self::Attachment),
        })
    }

    /// By the first table that says something.
    fn read_first(
        store: &Store,
        tables: &[Table],
        glyphs: [u16; 2],
    ) -> Result<Option<Self>, Refusal> {
        for &table in tables {
            if let Some(reading) = Self::read(store, table, glyphs)? {
                return Ok(Some(reading));
            }
        }
        Ok(None)
    }
}

/// The table that was asked for, or those of a kind that a file lists, in order.
pub fn listed(file: &StoreFile, kind: Kind, table: Option<u32>) -> Result<Vec<u32>, String> {
    let listed = file.tables().iter().filter(|table| table.kind == kind);
    let listed: Vec<u32> = listed.map(|table| table.number).collect();
    match table {
        Some(table) => Ok(vec![table]),
        None if listed.is_empty() => Err(format!(
            "it lists no table for {}: say which one, by its number behind the file's name",
            match kind {
                Kind::Pairs => "pairs",
                Kind::Marks => "marks on bases",
            }
        )),
        None => Ok(listed),
    }
}

/// The first table that says something, and what it says.
pub fn read_first<T>(
    store: &Store,
    kind: Kind,
    tables: &[u32],
    read: impl Fn(u32) -> Result<Option<T>, Refusal>,
) -> Result<Option<(u32, T)>, Failure> {
    for &table in tables {
        let found = read(table).map_err(|refusal| {
            let why = kind.explain_call(Call::Reading, store, table);
            Failure::refused(table, refusal, why)
        })?;
        if let Some(found) = found {
            return Ok(Some((table, found)));
        }
    }
    Ok(None)
}

/// What came of reading all that a table says.
#[derive(Clone, Debug, PartialEq, Eq)]
pub struct Compared {
    kind: Kind,
    /// How many first glyphs there are, and how many second ones; or marks and bases.
    glyphs: [usize; 2],
    /// Of how many of these the old table says something.
    found: usize,
    /// How many read otherwise afterwards.
    differing: usize,
    /// One of those.
    example: Option<[u16; 2]>,
}

/// Reads all pairs of the covered glyphs and of the second glyphs that the table speaks of, and of one
/// more: from the table in the old store, and from the tables, in order, in the new one. Of a mark
/// table, all covered marks on all covered bases, and on one glyph more.
pub fn compare(
    old: &Store,
    table: Table,
    new: &Store,
    tables: &[Table],
) -> Result<Compared, Refusal> {
    let Some(look) = Look::at(old.view(), table) else {
        return Err(Refusal::NoTable);
    };
    let firsts = look.first_glyphs(old.view());
    let seconds = look.second_glyphs(old.view());
    let mut compared = Compared {
        kind: table.kind,
        glyphs: [firsts.len(), seconds.len()],
        found: 0,
        differing: 0,
        example: None,
    };
    let mut progress = Progress::new("reading before and after");
    for (done, &first) in firsts.iter().enumerate() {
        for &second in &seconds {
            let glyphs = [first, second];
            let before = Reading::read(old, table, glyphs)?;
            let after = Reading::read_first(new, tables, glyphs)?;
            compared.add(glyphs, before, after);
        }
        progress.at(done as u64, firsts.len() as u64);
    }
    Ok(compared)
}

impl Compared {
    fn add(&mut self, glyphs: [u16; 2], before: Option<Reading>, after: Option<Reading>) {
        self.found += usize::from(before.is_some());
        if before != after {
            self.differing += 1;
            self.example.get_or_insert(glyphs);
        }
    }

    /// What is read, and of which two glyphs.
    fn names(&self) -> [&'static str; 3] {
        match self.kind {
            Kind::Pairs => ["pair", "first glyph", "second glyph"],
            Kind::Marks => ["attachment", "mark", "base"],
        }
    }

    /// How many were read, found and differ.
    pub fn told(&self) -> Json {
        let [firsts, seconds] = self.glyphs;
        Json::object([
            ("read", (firsts * seconds).into()),
            ("found", self.found.into()),
            ("differing", self.differing.into()),
        ])
    }

    /// Shows how many were read, and that all read as before.
    pub fn show(&self, screen: &mut Screen) -> Result<(), Failure> {
        let [firsts, seconds] = self.glyphs;
        let [name, first_name, second_name] = self.names();
        let read = format!(
            "{} x {} = {} read before and after; the table has {} of them",
            counted(firsts, first_name),
            counted(seconds, second_name),
            counted(firsts * seconds, name),
            grouped(self.found),
        );
        let Some([first, second]) = self.example else {
            let sentence = format!("Every {name} reads as before: {read}.");
            return screen.lines(&wrapped(&sentence, 0));
        };
        let example = match self.kind {
            Kind::Pairs => format!("glyph {first} before glyph {second}"),
            Kind::Marks => format!("mark {first} on base {second}"),
        };
        Err(Failure::Differs(format!(
            "{} {} read otherwise, {example} among them: {read}",
            grouped(self.differing),
            plural(name),
        )))
    }
}
