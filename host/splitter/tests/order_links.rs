//! Order-only links: nothing follows one, and nothing loses one.

mod common;

use common::{bytes, cut_marks, format1, listed, marks, w10, w12, w7, LIST, LOOKUP};
use splitter::{
    apply_lookup,
    explain::{Call, Lent},
    explain_in_lookups, read_mark, read_pair, split_in_lookups, split_in_lookups_into, Edition,
    Explanation, Kind, Link, Lookup, Reach, Refusal, Room, Scratch, Store,
};

/// Tables that are cut, table 0 of each store.
fn cut_tables() -> [(Kind, Store); 5] {
    [
        (Kind::Pairs, w7().0),
        (Kind::Pairs, w10()),
        (Kind::Pairs, w12()),
        (Kind::Pairs, format1(&[30_000; 5])),
        (Kind::Marks, cut_marks().0),
    ]
}

/// Order-only links from everything to everything.
fn everywhere(store: &Store) -> impl Iterator<Item = Link> {
    let [_, objects, _] = store.view().counts();
    (0..objects).flat_map(move |parent| (0..objects).map(move |it| Link::order_only(parent, it)))
}

/// A store with all order-only links that there can be.
fn with_orders(store: &Store) -> Store {
    let mut store = store.clone();
    let orders: Vec<Link> = everywhere(&store).collect();
    store.add_links(orders).unwrap();
    store
}

/// All objects of a store.
fn objects(store: &Store) -> Vec<&[u8]> {
    let view = store.view();
    (0..view.counts()[1])
        .map(|object| view.object(object).unwrap())
        .collect()
}

/// What a split without order-only links leaves, and these.
fn links_with(store: &Store, orders: impl Iterator<Item = Link>) -> Vec<Link> {
    let mut links: Vec<Link> = store.view().links().chain(orders).collect();
    links.sort();
    links
}

/// The kept table keeps its own, new objects have none, and all others stay, row by row.
#[test]
fn splits_leave_them_as_they_are() {
    let mut scratch = Scratch::new();
    for (kind, store) in cut_tables() {
        for edition in Edition::ALL {
            let (mut plain, mut ordered) = (store.clone(), with_orders(&store));
            let new_tables = kind.split(&mut plain, 0, edition, &mut scratch).unwrap();
            assert!(!new_tables.is_empty());
            assert_eq!(
                kind.split(&mut ordered, 0, edition, &mut scratch),
                Ok(new_tables)
            );
            assert_eq!(objects(&ordered), objects(&plain));
            let links: Vec<Link> = ordered.view().links().collect();
            assert_eq!(links, links_with(&plain, everywhere(&store)));
            assert!(ordered.view().is_sound());
            // The kept table again.
            let after = ordered.clone();
            assert_eq!(
                kind.split(&mut ordered, 0, edition, &mut scratch),
                Ok(vec![])
            );
            assert_eq!(ordered, after);
        }
    }
}

/// No measure, cut place, loop check or slot goes by one.
#[test]
fn nothing_follows_them() {
    let mut scratch = Scratch::new();
    for (kind, store) in cut_tables() {
        let ordered = with_orders(&store);
        assert_eq!(kind.explain(&ordered, 0), Explanation::default());
        assert_eq!(kind.fit(&ordered, 0), kind.fit(&store, 0));
        let reach = |store: &Store| Reach::new(store.view()).add(0);
        assert_eq!(reach(&ordered), reach(&store));
        for edition in Edition::ALL {
            let mut plan = |store: &Store| kind.cut_plan(store, 0, edition, &mut scratch).unwrap();
            let cuts = plan(&store);
            assert_eq!(plan(&ordered), cuts);
            let fits = kind.fits_at(&store, 0, &cuts);
            assert!(fits.as_ref().is_some_and(|fits| fits.len() > 1));
            assert_eq!(kind.fits_at(&ordered, 0, &cuts), fits);
        }
    }
}

#[test]
fn readings_pass_them_over() {
    let (pairs, marks) = (format1(&[100; 3]), marks([6; 3]));
    let [ordered_pairs, ordered_marks] = [&pairs, &marks].map(with_orders);
    for glyph in (0..50).step_by(5) {
        let pair = read_pair(&pairs, 0, glyph, 70);
        assert_eq!(read_pair(&ordered_pairs, 0, glyph, 70), pair);
        for base in [60, 61] {
            let mark = read_mark(&marks, 0, glyph, base);
            assert_eq!(read_mark(&ordered_marks, 0, glyph, base), mark);
        }
    }
}

/// A part that is named by an order-only link alone is not linked.
#[test]
fn they_link_no_part() {
    let mut store = Store::new();
    let table = store.add_object(&bytes(&[1, 0, 4, 0, 0])).unwrap();
    let coverage = store.add_object(&bytes(&[1, 0])).unwrap();
    store.add_order_link(table, coverage).unwrap();
    assert_eq!(read_pair(&store, table, 1, 2), Err(Refusal::BadParts));
    store.add_link(table, 2, coverage).unwrap();
    assert_eq!(read_pair(&store, table, 1, 2), Ok(None));
}

/// They need no room: exactly what is needed without them is enough, and one link less is too little.
#[test]
fn they_need_no_room() {
    let (edition, lent) = (Edition::First, Lent::ENOUGH);
    let split = Call::Split {
        edition: edition.number(),
        lent,
    };
    let in_lookups = Call::InLookups {
        list: LIST,
        edition: edition.number(),
        lent,
    };
    for (kind, call, (store, enough)) in [
        (Kind::Pairs, split, w7()),
        (Kind::Marks, split, cut_marks()),
        (Kind::Pairs, in_lookups, listed()),
    ] {
        let mut ordered = with_orders(&store);
        let mut with = |room| {
            ordered.reserve(room);
            let explanation = kind.explain_call(call, &ordered, 0);
            let (scratch, list) = (&mut Scratch::new(), &mut [0; 3]);
            let answer = match call == in_lookups {
                true => split_in_lookups_into(&mut ordered, LIST, 0, edition, scratch, list),
                false => kind.split_into(&mut ordered, 0, edition, scratch, list),
            };
            assert_eq!(answer.err(), explanation.refusal());
            (explanation.to_string(), ordered.room())
        };
        let (need, links) = (enough.links, enough.links - 1);
        let short = Room { links, ..enough };
        let why = format!(
            "the room for new links is {links}; it must be at least {need}, for what the split adds"
        );
        assert_eq!(with(short), (why, short));
        assert_eq!(
            with(enough),
            ("nothing is at fault".into(), Room::default())
        );
    }
}

/// Those to a lookup that is written anew lead to the new one, in order; its own stay, and it is given none.
#[test]
fn those_to_old_lookups_lead_to_new_ones() {
    let mut scratch = Scratch::new();
    let (store, room) = listed();
    for edition in Edition::ALL {
        let (mut plain, mut ordered) = (store.clone(), with_orders(&store));
        ordered.reserve(room);
        assert_eq!(
            explain_in_lookups(&ordered, LIST, 0, edition),
            Explanation::default()
        );
        let old = apply_lookup(&ordered, LOOKUP, 30, 7).unwrap();
        let new_tables = split_in_lookups(&mut plain, LIST, 0, edition, &mut scratch);
        assert_eq!(
            split_in_lookups(&mut ordered, LIST, 0, edition, &mut scratch),
            new_tables
        );
        assert_eq!(ordered.room(), Room::default());
        assert_eq!(objects(&ordered), objects(&plain));
        let lookup = ordered.view().child(LIST, 4).unwrap();
        let redirected = everywhere(&store).map(|mut link| {
            if link.child == LOOKUP {
                link.child = lookup;
            }
            link
        });
        let links: Vec<Link> = ordered.view().links().collect();
        assert_eq!(links, links_with(&plain, redirected));
        assert!(ordered
            .view()
            .orders_of(LOOKUP)
            .eq([0, 1, 2, 3, 4, 5, 7, 8, lookup]));
        assert_eq!(ordered.view().orders_of(lookup).len(), 0);
        assert_eq!(Lookup::read(&ordered, lookup), Lookup::read(&plain, lookup));
        assert!(old.is_some());
        assert_eq!(apply_lookup(&ordered, lookup, 30, 7), Ok(old));
    }
}

/// A lookup and a list that have order-only links alone name nothing.
#[test]
fn they_list_nothing() {
    let mut store = w7().0;
    let list = store.add_object(&bytes(&[1, 0])).unwrap();
    let lookup = store.add_object(&bytes(&[2, 0, 1, 0])).unwrap();
    store.add_order_link(list, lookup).unwrap();
    store.add_link(lookup, 6, 0).unwrap();
    let split = |store: &mut Store| {
        let edition = Edition::First;
        split_in_lookups(store, list, 0, edition, &mut Scratch::new())
    };
    assert_eq!(split(&mut store), Err(Refusal::BadList));
    let why = explain_in_lookups(&store, list, 0, Edition::First).to_string();
    assert_eq!(
        why,
        "lookup list, object 5: no lookup of it names table 0; one of type 2 must"
    );
    store.add_link(list, 2, lookup).unwrap();
    assert_eq!(split(&mut store), Ok(vec![7]));
}
