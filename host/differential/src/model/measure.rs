//! What a table of some items takes by the second edition, measured from its own start, and which lists of
//! cuts are within the limit by it.

use super::{cuts::LIMIT, opened::Opened, reach::Seen};

/// How far tables may go that start at each of the items.
#[derive(Clone, Debug, PartialEq, Eq)]
pub struct Measured {
    /// By the first item: the item at which, at the latest, the next table must start.
    furthest: Vec<usize>,
}

impl Measured {
    /// Measures a table from each of its items.
    pub fn of(table: &impl Opened) -> Self {
        let items = 0..table.item_count();
        Self {
            furthest: items.map(|first| furthest(table, first)).collect(),
        }
    }

    fn item_count(&self) -> usize {
        self.furthest.len()
    }

    /// Whether each table that these cuts make is within the limit, at every item after its first.
    pub fn is_within(&self, cuts: &[usize]) -> bool {
        let starts = [0].into_iter().chain(cuts.iter().copied());
        let ends = cuts.iter().copied().chain([self.item_count()]);
        let mut tables = starts.zip(ends);
        tables.all(|(start, end)| start == end || end <= self.furthest[start])
    }

    /// The fewest cuts of all lists within the limit, found item by item.
    pub fn fewest_cuts(&self) -> usize {
        // By the end: how many tables are needed for the items before it.
        let mut tables = vec![0_usize];
        for end in 1..=self.item_count() {
            let starts = (0..end).filter(|&start| end <= self.furthest[start]);
            let before = starts.map(|start| tables[start]).min();
            tables.push(1 + before.expect("a table of one item is within the limit"));
        }
        tables[self.item_count()].saturating_sub(1)
    }

    /// All lists of cuts that are within the limit, of which there may be very many.
    pub fn lists_within(&self) -> Vec<Vec<usize>> {
        let lists = (0..1_usize << self.item_count()).map(|chosen| {
            let is_chosen = |item: &usize| chosen >> item & 1 == 1;
            (0..self.item_count()).filter(is_chosen).collect()
        });
        lists
            .filter(|list: &Vec<usize>| self.is_within(list))
            .collect()
    }
}

/// The first item behind `first` with which a table that starts there is past the limit, or the count of
/// items. A table of one item never is.
fn furthest(table: &impl Opened, first: usize) -> usize {
    let mut seen = Seen::nothing(table.objects());
    let mut beside = table.beside();
    let mut sum = table.start();
    let items = first..table.item_count();
    let mut past = items.filter(|&item| {
        sum += table.own_cost(item) + seen.count(&table.links_of_item(item));
        beside.add(item);
        item > first && sum + beside.bytes() >= LIMIT
    });
    past.next().unwrap_or(table.item_count())
}
