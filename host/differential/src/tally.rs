//! How often each case occurred.

use crate::{
    check::{Compacted, Split},
    model::{cuts::Weighed, opened::Opened, reach::Seen},
    Edition,
};
use oracle::link;
use std::fmt::{self, Display, Formatter};

/// How many answer numbers there are.
pub const ANSWERS: usize = 13;

/// Counts of splits and of what became of them.
#[derive(Clone, Debug, Default, PartialEq, Eq)]
pub struct Tally {
    /// Splits by their answer number.
    pub answers: [usize; ANSWERS],
    /// Tables by how often they were cut: not, once, twice, up to 9 times, up to 99, more often.
    pub cut_counts: [usize; 6],
    /// New tables.
    pub new_tables: usize,
    /// Tables that were cut at 0.
    pub cuts_at_0: usize,
    /// Totals of 65,534 to 65,537.
    pub at_limit: [usize; 4],
    /// Splits in which what the text does otherwise could show and does not, and in which it shows:
    /// a 16-bit product that wraps, or old offsets in a kept array.
    pub differences: [usize; 2],
    /// Tables that the editions cut in other places.
    pub other_cuts: usize,
    /// Tables on which they differ in each of the three ways: an item at a cut of the second that leads to
    /// what was seen before, a cut of the second at an empty slot, and an item 0 that the first cuts off.
    pub ways: [usize; 3],
    /// Tables of which all lists of cuts were measured.
    pub listed: usize,
    /// Order-only links in stores that were cut: all, those of kept tables, and those to new lookups.
    pub orders: [usize; 3],
    /// Lookups that were written anew.
    pub rewritten: usize,
    /// Lookups that were applied before and after a split, and those of which nothing is promised.
    pub applied: [usize; 2],
    /// Objects that a compaction kept, and those that it dropped.
    pub objects: [usize; 2],
    /// Order-only links that it kept, and those that it dropped.
    pub orders_left: [usize; 2],
    /// Bytes that it moved, and compactions that moved nothing though something went.
    pub moved: [usize; 2],
    /// Pairs or attachments that were read before and after a split or a compaction.
    pub readings: usize,
    /// Those of them that were found.
    pub found: usize,
}

impl Tally {
    /// Counts a split by its answer, by the items looked at, and by whether a difference shows.
    pub fn add(&mut self, answer: u32, weighed: &[Weighed], shows: Option<bool>) {
        let mut cuts = weighed.iter().filter(|weighed| weighed.is_cut);
        let count = cuts.clone().count();
        self.answers[answer as usize] += 1;
        self.cut_counts[cut_class(count)] += 1;
        self.new_tables += count;
        self.cuts_at_0 += usize::from(cuts.any(|cut| cut.item == 0));
        if let Some(shows) = shows {
            self.differences[usize::from(shows)] += 1;
        }
        for weighed in weighed {
            if let total @ 65_534..=65_537 = weighed.total {
                self.at_limit[total - 65_534] += 1;
            }
        }
    }
}

impl Tally {
    /// Counts the ways in which the editions differ on a table.
    pub fn add_editions(&mut self, table: &impl Opened) {
        let [first, second] = Edition::ALL.map(|edition| {
            let mut cuts = table.weigh(edition);
            cuts.retain(|weighed| weighed.is_cut);
            cuts
        });
        let items = |cuts: &[Weighed]| -> Vec<usize> { cuts.iter().map(|cut| cut.item).collect() };
        self.other_cuts += usize::from(items(&first) != items(&second));
        let mut shares = second.iter().map(|cut| {
            let again = Seen::nothing(table.objects()).count(&table.links_of_item(cut.item));
            table.own_cost(cut.item) + again > cut.cost
        });
        let ways = [
            shares.any(|shares| shares),
            second.iter().any(|cut| table.is_empty(cut.item)),
            first.first().is_some_and(|cut| cut.item == 0),
        ];
        for (count, differ) in self.ways.iter_mut().zip(ways) {
            *count += usize::from(differ);
        }
    }
}

impl Tally {
    /// Counts the order-only links that a split leaves, if it cuts.
    pub fn add_orders(&mut self, split: &Split) {
        if split.after.count == 0 {
            return;
        }
        let objects_before = split.before.store.counts[1];
        let rows = split.after.store.links_in_use().iter();
        for row in rows.filter(|row| !link::is_offset(row)) {
            let is_kept = row[0] == split.before.table;
            let is_new = row[3] >= objects_before;
            for (count, counts) in self.orders.iter_mut().zip([true, is_kept, is_new]) {
                *count += usize::from(counts);
            }
        }
    }
}

impl Tally {
    /// Counts a compaction that was not refused, and what it kept.
    pub fn add_compaction(&mut self, compacted: &Compacted) {
        let stores = [&compacted.before.store, &compacted.after.store];
        let [before, after] = stores.map(|store| store.counts[1] as usize);
        let orders = stores.map(|store| {
            let rows = store.links_in_use().iter();
            rows.filter(|row| !link::is_offset(row)).count()
        });
        let moved = compacted.after.moved as usize;
        let has_gone = stores[0].counts != stores[1].counts;
        self.answers[0] += 1;
        for (counts, more) in [
            (&mut self.objects, [after, before - after]),
            (&mut self.orders_left, [orders[1], orders[0] - orders[1]]),
            (
                &mut self.moved,
                [moved, usize::from(has_gone && moved == 0)],
            ),
        ] {
            counts
                .iter_mut()
                .zip(more)
                .for_each(|(count, more)| *count += more);
        }
    }
}

fn cut_class(count: usize) -> usize {
    match count {
        0..=2 => count,
        3..=9 => 3,
        10..=99 => 4,
        _ => 5,
    }
}

impl Display for Tally {
    fn fmt(&self, f: &mut Formatter) -> fmt::Result {
        let [hidden, shown] = self.differences;
        writeln!(f, "answers 0 to {}: {:?}", ANSWERS - 1, self.answers)?;
        let cut_counts = self.cut_counts;
        writeln!(f, "cuts 0, 1, 2, 3.., 10.., 100..: {cut_counts:?}")?;
        let (new_tables, cuts_at_0) = (self.new_tables, self.cuts_at_0);
        writeln!(f, "new tables {new_tables}, cuts at 0 {cuts_at_0}")?;
        writeln!(f, "totals of 65,534 to 65,537: {:?}", self.at_limit)?;
        writeln!(f, "differences: hidden {hidden}, shown {shown}")?;
        let [shared, empty, at_0] = self.ways;
        if self.listed > 0 {
            let (other_cuts, listed) = (self.other_cuts, self.listed);
            writeln!(
                f,
                "editions: other cuts {other_cuts}; what a cut shares {shared}, a cut at an empty slot \
                 {empty}, item 0 too large {at_0}; all lists of cuts measured {listed}"
            )?;
        }
        let [orders, kept, redirected] = self.orders;
        if orders > 0 {
            writeln!(
                f,
                "order-only links {orders}, of kept tables {kept}, redirected {redirected}"
            )?;
        }
        let [applied, left_out] = self.applied;
        if self.rewritten > 0 {
            let rewritten = self.rewritten;
            writeln!(
                f,
                "lookups written anew {rewritten}, applied {applied}, left out {left_out}"
            )?;
        }
        let ([kept, gone], [moved, in_place]) = (self.objects, self.moved);
        if kept + gone > 0 {
            let [orders_kept, orders_gone] = self.orders_left;
            writeln!(
                f,
                "objects kept {kept}, gone {gone}; order-only links kept {orders_kept}, gone \
                 {orders_gone}; bytes moved {moved}, something gone and nothing moved {in_place}"
            )?;
        }
        write!(f, "readings {}, found {}", self.readings, self.found)
    }
}
