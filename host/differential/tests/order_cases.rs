//! What occurs among the generated stores of order-only links.

use differential::{
    compare::Objects,
    edit,
    generate::{self, Case, Listed},
    model::answers,
};
use oracle::{link, Store};
use std::collections::HashSet;

/// A store, its table, and its lookups that are written anew, in the order of the list.
struct Around {
    store: Store,
    table: u32,
    lookups: Vec<u32>,
}

impl Around {
    fn of_table(Case { store, table }: Case) -> Self {
        Self {
            store,
            table,
            lookups: Vec::new(),
        }
    }

    fn of_list(Listed { store, list, table }: Listed) -> Self {
        let lookups = answers::open_lookups(&store, list, table).unwrap();
        Self {
            lookups: lookups.iter().map(|lookup| lookup.number).collect(),
            store,
            table,
        }
    }

    /// Parent and child of each order-only link.
    fn orders(&self) -> impl Iterator<Item = [u32; 2]> + '_ {
        let rows = self.store.links_in_use().iter();
        let orders = rows.filter(|row| !link::is_offset(row));
        orders.map(|row| [row[0], row[3]])
    }

    fn orders_of(&self, parent: u32) -> impl Iterator<Item = u32> + '_ {
        let orders = self.orders().filter(move |order| order[0] == parent);
        orders.map(|[_, child]| child)
    }

    /// What the table leads to from some position on.
    fn children(&self, first: u32) -> Vec<u32> {
        let offsets = self.store.links(self.table).into_iter();
        let offsets = offsets.filter(|(position, _)| *position >= first);
        offsets.map(|(_, child)| child).collect()
    }

    /// Whether the table is reached from itself along some rows.
    fn has_ring(&self, is_followed: fn(&link::Row) -> bool) -> bool {
        let mut seen = HashSet::new();
        let mut pending = vec![self.table];
        while let Some(object) = pending.pop() {
            let rows = self.store.links_in_use().iter();
            let next = rows.filter(|row| row[0] == object && is_followed(row));
            pending.extend(next.map(|row| row[3]).filter(|&child| seen.insert(child)));
        }
        seen.contains(&self.table)
    }

    fn has_no_bytes(&self, object: u32) -> bool {
        edit::bytes(&self.store, object).is_empty()
    }
}

/// More than this are many.
const MANY: usize = 6;

/// Something that a store may have.
type Has = fn(&Around) -> bool;

/// Of any store.
const CASES: &[(&str, Has)] = &[
    ("none", |it| it.orders().next().is_none()),
    ("an object after itself", |it| {
        it.orders().any(|[parent, child]| parent == child)
    }),
    ("the table after itself", |it| {
        it.orders_of(it.table).any(|child| child == it.table)
    }),
    ("a ring of them through the table", |it| {
        it.has_ring(|row| !link::is_offset(row))
    }),
    ("a ring through the table, of offsets too", |it| {
        !it.has_ring(|row| !link::is_offset(row)) && it.has_ring(|_| true)
    }),
    ("many of the table", |it| {
        it.orders_of(it.table).count() > MANY
    }),
    ("many of another object", |it| {
        let orders: Vec<_> = it.orders().collect();
        let mut parents = orders.chunk_by(|a, b| a[0] == b[0]);
        parents.any(|orders| orders[0][0] != it.table && orders.len() > MANY)
    }),
    ("many to an object", |it| {
        let mut children: Vec<_> = it.orders().map(|[_, child]| child).collect();
        children.sort_unstable();
        let mut children = children.chunk_by(|a, b| a == b);
        children.any(|orders| orders.len() > MANY)
    }),
    ("of no bytes", |it| {
        it.orders().any(|[parent, _]| it.has_no_bytes(parent))
    }),
    ("to no bytes", |it| {
        it.orders().any(|[_, child]| it.has_no_bytes(child))
    }),
    ("beside an offset to the same child", |it| {
        let leads = |[parent, child]: [u32; 2]| {
            let mut offsets = it.store.links(parent).into_iter();
            offsets.any(|offset| offset.1 == child)
        };
        it.orders().any(leads)
    }),
    ("of a coverage", |it| {
        let coverage = edit::child_at(&it.store, it.table, 2);
        coverage.is_some_and(|coverage| it.orders_of(coverage).next().is_some())
    }),
    ("to a coverage", |it| {
        let coverage = edit::child_at(&it.store, it.table, 2);
        it.orders().any(|[_, child]| Some(child) == coverage)
    }),
    ("of what is linked behind the coverage", |it| {
        let children = it.children(8);
        it.orders().any(|[parent, _]| children.contains(&parent))
    }),
    ("to what is linked behind the coverage", |it| {
        let children = it.children(8);
        it.orders().any(|[_, child]| children.contains(&child))
    }),
];

/// Of stores with lookups alone.
const IN_LOOKUPS: &[(&str, Has)] = &[
    ("of a lookup", |it| {
        it.orders().any(|[parent, _]| it.lookups.contains(&parent))
    }),
    ("to a lookup", |it| {
        it.orders().any(|[_, child]| it.lookups.contains(&child))
    }),
    ("of a lookup to itself", |it| {
        let is_one = |order: [u32; 2]| order[0] == order[1] && it.lookups.contains(&order[0]);
        it.orders().any(is_one)
    }),
    ("of the table to a lookup", |it| {
        let mut children = it.orders_of(it.table);
        children.any(|child| it.lookups.contains(&child))
    }),
    ("to lookups, and to others with higher numbers", |it| {
        let is_lookup = |child: &u32| it.lookups.contains(child);
        it.orders().any(|[parent, child]| {
            let mut children = it.orders_of(parent);
            is_lookup(&child) && children.any(|other| other > child && !is_lookup(&other))
        })
    }),
    ("to lookups whose new ones are in another order", |it| {
        let place = |child: u32| it.lookups.iter().position(|&lookup| lookup == child);
        it.orders().any(|[parent, child]| {
            let children = it.orders_of(parent);
            let mut later = children.filter(|&other| other > child).filter_map(place);
            place(child).is_some_and(|here| later.any(|there| there < here))
        })
    }),
];

fn assert_each_occurs(name: &str, cases: &[(&str, Has)], around: impl Fn(u64) -> Around) {
    let mut counts = vec![0; cases.len()];
    for store in (0..600).map(around) {
        for ((_, has), count) in cases.iter().zip(&mut counts) {
            *count += usize::from(has(&store));
        }
    }
    for ((case, _), &count) in cases.iter().zip(&counts) {
        println!("{name}, {case}: {count}");
        assert!(count >= 5);
    }
}

#[test]
fn each_case_occurs() {
    assert_each_occurs("format 1", CASES, |seed| {
        Around::of_table(generate::format1(seed))
    });
    assert_each_occurs("format 2", CASES, |seed| {
        Around::of_table(generate::format2(seed))
    });
    assert_each_occurs("marks", CASES, |seed| {
        Around::of_table(generate::marks(seed))
    });
    assert_each_occurs("lookups", CASES, |seed| {
        Around::of_list(generate::lookups(seed))
    });
    assert_each_occurs("lookups", IN_LOOKUPS, |seed| {
        Around::of_list(generate::lookups(seed))
    });
}
