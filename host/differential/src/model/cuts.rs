//! Where to cut: one rule for every kind of table, in two editions.

use super::{opened::Opened, reach::Seen};

/// A table and all that is counted with it must end below this.
pub const LIMIT: usize = 65_536;

/// An edition of the rule.
#[derive(Clone, Copy, Debug, PartialEq, Eq)]
pub enum Edition {
    /// The crate's.
    First,
    /// The one that keeps to the limit.
    Second,
}

impl Edition {
    /// Both, in order.
    pub const ALL: [Self; 2] = [Self::First, Self::Second];

    /// Its number in a call.
    pub fn number(self) -> u32 {
        match self {
            Self::First => 1,
            Self::Second => 2,
        }
    }

    /// The edition of a number.
    pub fn of(number: u32) -> Option<Self> {
        Self::ALL
            .into_iter()
            .find(|edition| edition.number() == number)
    }

    /// What the item at a cut costs. Nothing is seen there; what is measured again counts as seen after.
    fn cost_at_cut(self, before: usize, measure_again: impl FnOnce() -> usize) -> usize {
        match self {
            Self::First => before,
            Self::Second => measure_again(),
        }
    }

    /// Whether an empty slot costs something and is tested for a cut.
    fn looks_at_empty_slots(self) -> bool {
        self == Self::Second
    }

    /// Whether item 0 may be cut off.
    fn cuts_at_0(self) -> bool {
        self == Self::First
    }
}

/// An item as it was looked at.
#[derive(Clone, Copy, Debug, PartialEq, Eq)]
pub struct Weighed {
    /// The pair set, class-1 row or mark class.
    pub item: usize,
    /// What it costs, where nothing counts that was seen before.
    pub cost: usize,
    /// The total with it, which decides.
    pub total: usize,
    /// Whether the table is cut at it.
    pub is_cut: bool,
}

/// What stands beside a table and is counted with it: coverage and class definitions of its items.
pub trait Beside {
    /// There are no items yet.
    fn restart(&mut self);

    /// An item more.
    fn add(&mut self, item: usize);

    /// What it takes.
    fn bytes(&self) -> usize;
}

/// All items that are looked at, in order.
pub fn weigh(table: &impl Opened, edition: Edition) -> Vec<Weighed> {
    let mut weighed = Vec::new();
    let mut seen = Seen::nothing(table.objects());
    let mut beside = table.beside();
    let mut sum = table.start();
    for item in 0..table.item_count() {
        if table.is_empty(item) && !edition.looks_at_empty_slots() {
            continue;
        }
        let links = table.links_of_item(item);
        let own_cost = table.own_cost(item);
        let cost = own_cost + seen.count(&links);
        beside.add(item);
        let total = sum + cost + beside.bytes();
        let is_cut = total >= LIMIT && (item > 0 || edition.cuts_at_0());
        if is_cut {
            seen.forget();
            let cost = edition.cost_at_cut(cost, || own_cost + seen.count(&links));
            beside.restart();
            beside.add(item);
            sum = table.start() + cost;
        } else {
            sum += cost;
        }
        weighed.push(Weighed {
            item,
            cost,
            total,
            is_cut,
        });
    }
    weighed
}
