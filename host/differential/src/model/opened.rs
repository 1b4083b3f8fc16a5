//! A table that checks 1 to 5 let pass, whatever its kind.

use super::{
    cuts::{weigh, Beside, Edition, Weighed},
    objects::{Link, Objects},
    reach::Seen,
    written::Written,
};

/// What the checks 6 to 8 and a split ask of a table.
pub trait Opened {
    /// The store that it is in.
    fn objects(&self) -> Objects<'_>;

    /// Its number.
    fn number(&self) -> u32;

    /// How many covered glyphs take an entry of scratch.
    fn glyph_count(&self) -> usize;

    /// How many items there are: pair sets, class-1 rows or mark classes.
    fn item_count(&self) -> usize;

    /// Whether each link stands at a slot.
    fn links_are_at_slots(&self) -> bool;

    /// Whether the pair sets of its items are sorted. Where it has none, they are.
    fn sets_are_sorted(&self) -> bool;

    /// The links of an item.
    fn links_of_item(&self, item: usize) -> Vec<Link>;

    /// The objects that the table itself leads to and that are no items: their bytes are read.
    fn parts(&self) -> Vec<u32>;

    /// Whether an object that it leads to may be longer or shorter, and all is read as before.
    fn is_free(&self, object: u32) -> bool {
        !self.parts().contains(&object)
    }

    /// The sum before its first item.
    fn start(&self) -> usize;

    /// Whether an item is an empty slot.
    fn is_empty(&self, _item: usize) -> bool {
        false
    }

    /// What an item adds to the sum, beside what it leads to.
    fn own_cost(&self, item: usize) -> usize;

    /// What is counted beside the sum, for no items yet.
    fn beside(&self) -> Box<dyn Beside + '_>;

    /// What a split at these places writes, of which there is at least one.
    fn write(&self, cuts: &[usize]) -> Written;

    /// All items that are looked at, in order.
    fn weigh(&self, edition: Edition) -> Vec<Weighed>
    where
        Self: Sized,
    {
        weigh(self, edition)
    }

    /// The places at which it is cut.
    fn cut_places(&self, edition: Edition) -> Vec<usize>
    where
        Self: Sized,
    {
        let weighed = self.weigh(edition).into_iter();
        let cuts = weighed.filter(|weighed| weighed.is_cut);
        cuts.map(|weighed| weighed.item).collect()
    }

    /// What its coverages, class definitions and arrays take as they stand, as far as they are counted.
    fn parts_together(&self) -> usize;

    /// The bytes of the table, of its parts and of all that its items lead to, each of these once.
    fn together(&self) -> usize {
        let mut seen = Seen::nothing(self.objects());
        let items = 0..self.item_count();
        let reached: usize = items
            .map(|item| seen.count(&self.links_of_item(item)))
            .sum();
        let table = self.objects().bytes(self.number()).len();
        table + self.parts_together() + reached
    }
}
