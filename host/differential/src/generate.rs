//! Valid stores of PairPos tables, of both formats, of MarkBasePos tables, and of PairPos tables in
//! lookups, each from its seed. Most have order-only links, from and to everything.

mod draft;
mod format1;
mod format2;
mod glyphs;
mod growth;
pub mod large;
mod lookups;
mod marks;
mod orders;
mod roots;

pub use roots::roots;

use crate::{
    edit,
    model::{
        answers::{self, Opening},
        opened::Opened,
        values::ValueFormat,
    },
    Edition, Random,
};
use draft::Draft;
use oracle::Store;

/// A store, all of it in use, and a table in it that no check refuses.
#[derive(Clone, Debug)]
pub struct Case {
    /// The store.
    pub store: Store,
    /// The number of the table.
    pub table: u32,
}

/// A store, all of it in use, and in it a lookup list and a PairPos table that a lookup of the list names;
/// no check refuses them.
#[derive(Clone, Debug)]
pub struct Listed {
    /// The store.
    pub store: Store,
    /// The number of the list.
    pub list: u32,
    /// The number of the table.
    pub table: u32,
}

/// A format 1 table.
pub fn format1(seed: u64) -> Case {
    let mut random = Random::new(seed);
    let mut draft = Draft::default();
    let table = format1::draft(&mut draft, &mut random);
    finish(draft, table, &mut random, pair_landing)
}

/// A format 2 table.
pub fn format2(seed: u64) -> Case {
    let mut random = Random::new(seed);
    let mut draft = Draft::default();
    let table = format2::draft(&mut draft, &mut random);
    finish(draft, table, &mut random, pair_landing)
}

/// A MarkBasePos table.
pub fn marks(seed: u64) -> Case {
    let mut random = Random::new(seed);
    let mut draft = Draft::default();
    let table = marks::draft(&mut draft, &mut random);
    finish(draft, table, &mut random, mark_landing)
}

/// A table of either format, in the lookups of a list.
pub fn lookups(seed: u64) -> Listed {
    let mut random = Random::new(seed);
    let mut draft = Draft::default();
    let table = match random.one_in(2) {
        true => format1::draft(&mut draft, &mut random),
        false => format2::draft(&mut draft, &mut random),
    };
    let list = lookups::draft(&mut draft, &mut random, table);
    let (case, numbers) = lay_out(draft, &[table, list], &mut random, pair_landing);
    Listed {
        store: case.store,
        list: numbers[list],
        table: case.table,
    }
}

/// An object below some item, and the length with which the total of that item, or of an empty slot behind it,
/// is next to the limit, by one of the editions.
type Landing = fn(&Case, &mut Random) -> Option<(u32, usize)>;

fn finish(draft: Draft, table: usize, random: &mut Random, landing: Landing) -> Case {
    lay_out(draft, &[table], random, landing).0
}

/// The finished store, and the numbers of its objects. The first of those that a call names is the table.
fn lay_out(
    mut draft: Draft,
    named: &[usize],
    random: &mut Random,
    landing: Landing,
) -> (Case, Vec<u32>) {
    growth::surround(&mut draft, random);
    orders::draft(&mut draft, random, named);
    let (store, numbers) = draft.lay_out(random);
    let mut case = Case {
        store,
        table: numbers[named[0]],
    };
    if random.one_in(2) {
        if let Some((object, len)) = landing(&case, random) {
            resize(&mut case.store, object, len);
        }
    }
    (case, numbers)
}

/// Any bits, or few, or none that count.
fn value_format(random: &mut Random) -> ValueFormat {
    let bits = random.number() as u16;
    ValueFormat(match random.below(6) {
        0 => 0,
        1 => bits & 0xFF00,
        2 => 1 << random.below(8),
        _ => bits,
    })
}

fn resize(store: &mut Store, object: u32, len: usize) {
    let mut bytes = edit::bytes(store, object).to_vec();
    bytes.resize(len, 0xA5);
    edit::replace(store, object, &bytes);
}

fn pair_landing(case: &Case, random: &mut Random) -> Option<(u32, usize)> {
    landing(answers::open(&case.store, case.table), random)
}

fn mark_landing(case: &Case, random: &mut Random) -> Option<(u32, usize)> {
    landing(answers::open_marks(&case.store, case.table), random)
}

fn landing(opening: Opening<impl Opened>, random: &mut Random) -> Option<(u32, usize)> {
    let table = opening.ok()??;
    let target = random.within(65_534..=65_537);
    let objects = table.objects();
    let weighed = table.weigh(random.pick(&Edition::ALL));
    if weighed.is_empty() {
        return None;
    }
    (0..8).find_map(|_| {
        let here = weighed[random.below(weighed.len())];
        let up_to_here = (0..=here.item).rev();
        let mut links = up_to_here.map(|item| table.links_of_item(item));
        let links = links.find(|links| !links.is_empty())?;
        let [_, _, _, mut object, _] = random.pick(&links);
        if !table.is_free(object) {
            let below = objects.offsets_of(object);
            object = below.get(random.below(below.len().max(1)))?[3];
        }
        let len = (objects.bytes(object).len() + target).checked_sub(here.total)?;
        let last = objects.offsets_of(object).last();
        let least = last.map_or(0, |link| link[1] as usize + 2);
        let is_free = table.is_free(object);
        (is_free && (least..70_000).contains(&len)).then_some((object, len))
    })
}
