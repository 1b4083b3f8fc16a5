//! What a call is lent: scratch and room, exactly as much as is needed or more.

mod compaction;

pub use compaction::{all_kinds, compaction_amply, compaction_exactly};

use crate::{
    generate::Listed,
    model::{
        answers::{self, Opening},
        lookups::entered,
        opened::Opened,
    },
    Call, Edition, Random, Scratch,
};
use oracle::{link, Store};

/// What a split of a table needs to be lent.
#[derive(Clone, Copy, Debug, Default, PartialEq, Eq)]
pub struct Need {
    /// Entries of `walk`.
    pub walk: usize,
    /// Entries of `glyphs` and of `classes`: the covered glyphs.
    pub glyphs: usize,
    /// Entries of `cuts`: the items.
    pub items: usize,
    /// Data bytes, objects and links that are added.
    pub room: [usize; 3],
    /// Entries of the list: the cuts.
    pub list: usize,
}

impl Need {
    /// The need of a split of a PairPos table.
    pub fn of(store: &Store, table: u32, edition: Edition) -> Self {
        Self::of_opened(store, answers::open(store, table), edition)
    }

    /// The need of a split of a MarkBasePos table.
    pub fn of_marks(store: &Store, table: u32, edition: Edition) -> Self {
        Self::of_opened(store, answers::open_marks(store, table), edition)
    }

    /// The need of a split of a PairPos table whose new tables are entered in the lookups of a list: as
    /// without them, and the room that these take. Where a lookup has too many subtables it is unknown.
    pub fn in_lookups(store: &Store, list: u32, table: u32, edition: Edition) -> Self {
        let mut need = Self::of(store, table, edition);
        let lookups = answers::open_lookups(store, list, table);
        if let (Ok(lookups), Ok(Some(pairpos))) = (lookups, answers::open(store, table)) {
            let cuts = pairpos.cut_places(edition);
            let written = (!cuts.is_empty()).then(|| pairpos.write(&cuts));
            let written = written.and_then(|it| entered::enter(&pairpos, it, lookups));
            need.room = written.map_or([0; 3], |written| written.need(store));
        }
        need
    }

    /// A table that is refused by 1 to 5, or has another format, needs nothing.
    fn of_opened(store: &Store, opening: Opening<impl Opened>, edition: Edition) -> Self {
        let Ok(Some(table)) = opening else {
            return Self::default();
        };
        let cuts = table.cut_places(edition);
        let written = (!cuts.is_empty()).then(|| table.write(&cuts));
        Self {
            walk: 2 * table.objects().count(),
            glyphs: table.glyph_count(),
            items: table.item_count(),
            room: written.map_or([0; 3], |written| written.need(store)),
            list: cuts.len(),
        }
    }

    /// A call that is lent as much, and up to so much to spare of each.
    fn lend(
        &self,
        store: &Store,
        table: u32,
        edition: Edition,
        random: &mut Random,
        spare: usize,
    ) -> Call<u32> {
        let mut store = store.clone();
        let [data, objects, links] = self.room;
        let data: Vec<u8> = junk(random, data, spare);
        let objects: Vec<u32> = junk(random, 2 * objects, spare);
        let links: Vec<u32> = junk(random, link::NUMBERS * links, spare);
        store.data.extend(data);
        store.objects.extend(objects);
        store.links.extend(links);
        Call {
            store,
            table,
            edition: edition.number(),
            lookup_list: 0,
            scratch: Scratch {
                walk: junk(random, self.walk, spare),
                glyph_set: junk(random, 8_192, spare),
                glyphs: junk(random, self.glyphs, spare),
                classes: junk(random, self.glyphs, spare),
                cuts: junk(random, self.items, spare),
            },
            list: junk(random, self.list, spare),
            count: 0xFFFF,
        }
    }
}

/// A call that is lent exactly what it needs. Scratch, list and all that is not in use is junk.
pub fn exactly(store: &Store, table: u32, edition: Edition, random: &mut Random) -> Call<u32> {
    Need::of(store, table, edition).lend(store, table, edition, random, 0)
}

/// A call that is lent what it needs or somewhat more.
pub fn amply(store: &Store, table: u32, edition: Edition, random: &mut Random) -> Call<u32> {
    Need::of(store, table, edition).lend(store, table, edition, random, SPARE)
}

/// A call for a MarkBasePos table that is lent exactly what it needs.
pub fn marks_exactly(
    store: &Store,
    table: u32,
    edition: Edition,
    random: &mut Random,
) -> Call<u32> {
    Need::of_marks(store, table, edition).lend(store, table, edition, random, 0)
}

/// A call for a MarkBasePos table that is lent what it needs or somewhat more.
pub fn marks_amply(store: &Store, table: u32, edition: Edition, random: &mut Random) -> Call<u32> {
    Need::of_marks(store, table, edition).lend(store, table, edition, random, SPARE)
}

/// A call that enters new tables in lookups and is lent exactly what it needs.
pub fn in_lookups_exactly(case: &Listed, edition: Edition, random: &mut Random) -> Call<u32> {
    lend_in_lookups(case, edition, random, 0)
}

/// A call that enters new tables in lookups and is lent what it needs or somewhat more.
pub fn in_lookups_amply(case: &Listed, edition: Edition, random: &mut Random) -> Call<u32> {
    lend_in_lookups(case, edition, random, SPARE)
}

fn lend_in_lookups(
    case: &Listed,
    edition: Edition,
    random: &mut Random,
    spare: usize,
) -> Call<u32> {
    let Listed { store, list, table } = case;
    let need = Need::in_lookups(store, *list, *table, edition);
    Call {
        lookup_list: *list,
        ..need.lend(store, *table, edition, random, spare)
    }
}

/// The most that an ample call is lent beyond its need, of each kind.
const SPARE: usize = 9;

/// At least so many numbers, and up to so many to spare.
fn junk<N: From<u8>>(random: &mut Random, least: usize, spare: usize) -> Vec<N> {
    let len = least + random.within(0..=spare);
    random.junk(len)
}

impl Call<u32> {
    /// A cut plan in place of a split.
    pub fn to_plan(&self) -> Call<u16> {
        Call {
            store: self.store.clone(),
            table: self.table,
            edition: self.edition,
            lookup_list: self.lookup_list,
            scratch: self.scratch.clone(),
            list: self.list.iter().map(|&entry| entry as u16).collect(),
            count: self.count,
        }
    }
}
