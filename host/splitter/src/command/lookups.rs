//! New tables entered in lookups, and the lookups before and after.

use super::{
    failure::Failure,
    look::Look,
    progress::Progress,
    report::{After, Amount, Before},
    screen::Screen,
    text::{counted, grouped, wrapped},
};
use splitter::{
    apply_lookup, cut_plan, split_in_lookups, store_file::Table, Edition, Explanation, Lookup,
    Refusal, Scratch, Store,
};

/// Splits a table, enters the new ones in the lookups of a list, and shows what came of it, and that each
/// lookup for pairs says what it said.
pub fn show(
    store: &mut Store,
    list: u32,
    table: u32,
    edition: Edition,
    scratch: &mut Scratch,
    screen: &mut Screen,
) -> Result<(), Failure> {
    let refused = |refusal| Failure::refused(table, refusal, Explanation::default());
    let old = store.clone();
    let cuts = cut_plan(&old, table, edition, scratch).map_err(refused)?;
    let new_tables = split_in_lookups(store, list, table, edition, scratch).map_err(refused)?;
    let tables = [table].into_iter().chain(new_tables);
    let tables: Vec<Table> = tables.map(Table::pairs).collect();
    if let Some(before) = Before::new(old.view(), tables[0], edition, cuts) {
        before.describe(screen, Amount::Some)?;
        screen.line("")?;
        let after = After::of(store.view(), tables);
        before.show_after(&after, screen, Amount::Some)?;
    }
    screen.line("")?;
    for entered in Entered::all(&old, store, list) {
        entered.show(screen).map_err(refused)??;
        screen.flush()?;
        let compared = entered.compare().map_err(refused)?;
        screen.line("")?;
        compared.show(screen)?;
    }
    Ok(())
}

/// A lookup as a list leads to it before and after.
struct Entered<'a> {
    old: (&'a Store, u32),
    new: (&'a Store, u32),
}

impl<'a> Entered<'a> {
    /// All lookups of a list that were written anew.
    fn all(old: &'a Store, new: &'a Store, list: u32) -> Vec<Self> {
        let lookups = old.view().offsets_of(list).zip(new.view().offsets_of(list));
        let anew = lookups.filter(|(before, after)| before.child != after.child);
        let entered = anew.map(|(before, after)| Self {
            old: (old, before.child),
            new: (new, after.child),
        });
        entered.collect()
    }

    /// Shows what it lists, before and after.
    fn show(&self, screen: &mut Screen) -> Result<Result<(), Failure>, Refusal> {
        let line = |label: &str, (store, lookup): (&Store, u32)| {
            let listed = Lookup::read(store, lookup)?;
            let numbers: Vec<String> = listed.subtables().map(|it| it.to_string()).collect();
            let count = counted(numbers.len(), "subtable");
            let numbers = numbers.join(", ");
            Ok(format!(
                "  {label} lookup {lookup:<6}lists {count}: {numbers}"
            ))
        };
        let lines = [line("old", self.old)?, line("new", self.new)?];
        Ok(screen.lines(&lines))
    }

    /// Applies it, before and after, to all glyphs of which its subtables say something.
    fn compare(&self) -> Result<Compared, Refusal> {
        let (old, lookup) = self.old;
        let [mut firsts, mut seconds] = [Vec::new(), Vec::new()];
        for table in Lookup::read(old, lookup)?.subtables() {
            if let Some(look) = Look::at(old.view(), Table::pairs(table)) {
                firsts.extend(look.first_glyphs(old.view()));
                seconds.extend(look.second_glyphs(old.view()));
            }
        }
        for glyphs in [&mut firsts, &mut seconds] {
            glyphs.sort_unstable();
            glyphs.dedup();
        }
        let mut compared = Compared {
            glyphs: [firsts.len(), seconds.len()],
            found: 0,
            differing: 0,
        };
        let mut progress = Progress::new("applying the lookup before and after");
        for (done, &first) in firsts.iter().enumerate() {
            for &second in &seconds {
                let [before, after] = [self.old, self.new]
                    .map(|(store, lookup)| apply_lookup(store, lookup, first, second));
                let (before, after) = (before?, after?);
                compared.found += usize::from(before.is_some());
                compared.differing += usize::from(before != after);
            }
            progress.at(done as u64, firsts.len() as u64);
        }
        Ok(compared)
    }
}

/// What came of applying a lookup before and after.
struct Compared {
    /// How many first glyphs there are, and how many second ones.
    glyphs: [usize; 2],
    /// For how many pairs of these the old lookup says something.
    found: usize,
    /// For how many it says something else afterwards.
    differing: usize,
}

impl Compared {
    fn show(&self, screen: &mut Screen) -> Result<(), Failure> {
        let [firsts, seconds] = self.glyphs;
        let read = format!(
            "{} x {} = {} read before and after; it has {} of them",
            counted(firsts, "first glyph"),
            counted(seconds, "second glyph"),
            counted(firsts * seconds, "pair"),
            grouped(self.found),
        );
        match self.differing {
            0 => {
                let sentence = format!("Every pair of the lookup reads as before: {read}.");
                screen.lines(&wrapped(&sentence, 0))
            }
            differing => Err(Failure::Differs(format!(
                "{} of the lookup read otherwise: {read}",
                counted(differing, "pair"),
            ))),
        }
    }
}
