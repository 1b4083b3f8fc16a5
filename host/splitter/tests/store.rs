//! Stores that are built, and what is refused on the way.

mod common;

use common::store;
use splitter::{Link, LinkKind, Refusal, Room, Store, StoreRef};

/// Among them one at a position and one without to the same child, and one to the parent itself.
const LINKS: [Link; 9] = [
    Link::offset(2, 4, 0),
    Link::order_only(0, 1),
    Link::offset(0, 6, 1),
    Link::order_only(2, 1),
    Link::offset(1, 0, 2),
    Link::offset(0, 0, 2),
    Link::order_only(0, 0),
    Link::order_only(1, 0),
    Link::offset(0, 3, 0),
];

/// The same in the order of rows: by parent, offsets by position, then order-only links by child.
const ROWS: [[u32; 5]; 9] = [
    [0, 0, 2, 2, 0],
    [0, 3, 2, 0, 0],
    [0, 6, 2, 1, 0],
    [0, 0, 0, 0, 1],
    [0, 0, 0, 1, 1],
    [1, 0, 2, 2, 0],
    [1, 0, 0, 0, 1],
    [2, 4, 2, 0, 0],
    [2, 0, 0, 1, 1],
];

/// Adds a link by the call for its kind.
fn add(store: &mut Store, link: Link) -> Result<(), Refusal> {
    match link.kind {
        LinkKind::Offset => store.add_link(link.parent, link.position, link.child),
        _ => store.add_order_link(link.parent, link.child),
    }
}

/// Three objects of eight bytes.
fn three() -> Store {
    store(&[&[1; 4], &[2; 4], &[3; 4]], &[])
}

#[test]
fn objects_follow_one_another() {
    let mut store = three();
    assert_eq!(store.add_object(&[9, 8, 7]), Ok(3));
    assert_eq!(store.add_object(&[]), Ok(4));
    let view = store.view();
    assert_eq!(view.counts(), [27, 5, 0]);
    assert_eq!(view.data().len(), 27);
    assert_eq!(view.object(1), Some(&[0, 2, 0, 2, 0, 2, 0, 2][..]));
    assert_eq!(view.object(3), Some(&[9, 8, 7][..]));
    assert_eq!(view.object(4), Some(&[][..]));
    assert_eq!(view.object(5), None);
}

/// One by one and all at once, over room and without.
#[test]
fn link_rows_are_in_order() {
    let mut stores = [three(), three(), three(), three()];
    for store in &mut stores[2..] {
        store.reserve(Room {
            links: 3,
            ..Room::default()
        });
    }
    for store in &mut stores[1..3] {
        for link in LINKS {
            assert_eq!(add(store, link), Ok(()));
        }
    }
    assert_eq!(stores[0].add_links(LINKS), Ok(()));
    assert_eq!(stores[3].add_order_link(1, 0), Ok(()));
    assert_eq!(stores[3].add_link(1, 0, 2), Ok(()));
    let rest = LINKS.into_iter().filter(|link| link.parent != 1);
    assert_eq!(stores[3].add_links(rest), Ok(()));

    let mut sorted = LINKS;
    sorted.sort();
    for store in stores {
        let view = store.view();
        assert_eq!(view.link_rows(), ROWS);
        assert!(view.links().eq(sorted));
        assert!(view.is_sound());
    }
}

/// Offsets and order-only links of an object, each by themselves. Only offsets stand at a position.
#[test]
fn links_by_kind() {
    let mut store = three();
    store.add_links(LINKS).unwrap();
    let view = store.view();
    let offsets =
        [[0, 2], [3, 0], [6, 1]].map(|[position, child]| Link::offset(0, position, child));
    assert!(view.offsets_of(0).eq(offsets));
    assert!(view.offsets_of(1).eq([Link::offset(1, 0, 2)]));
    assert_eq!(view.offsets_of(3).len(), 0);
    assert!(view.orders_of(0).eq([0, 1]));
    assert!(view.orders_of(2).eq([1]));
    assert_eq!(view.orders_of(3).len(), 0);
    assert_eq!([view.child(2, 4), view.child(2, 5)], [Some(0), None]);
    assert_eq!([view.child(0, 0), view.child(2, 0)], [Some(2), None]);
}

/// A parent or a child that is not in use, a position that is past the parent's end or taken, an order-only
/// link that is there.
#[test]
fn links_that_do_not_fit() {
    let mut store = three();
    store.add_link(0, 6, 1).unwrap();
    store.add_order_link(0, 1).unwrap();
    let before = store.clone();
    let offsets = [[3, 0, 0], [0, 0, 3], [0, 7, 1], [0, u32::MAX, 1], [0, 6, 2]];
    let offsets = offsets.map(|[parent, position, child]| Link::offset(parent, position, child));
    let orders = [[3, 0], [0, 3], [u32::MAX, u32::MAX], [0, 1]];
    let orders = orders.map(|[parent, child]| Link::order_only(parent, child));
    for link in offsets.into_iter().chain(orders) {
        assert_eq!(add(&mut store, link), Err(Refusal::Unsound));
        let links = [Link::offset(1, 0, 0), link];
        assert_eq!(store.add_links(links), Err(Refusal::Unsound));
    }
    assert_eq!(store, before);
}

/// What can only be said of links by themselves: one twice, two offsets at one position, an order-only link
/// with a position, and a kind that there is not.
#[test]
fn links_that_are_none() {
    let mut store = three();
    let (offset, order_only) = (Link::offset(1, 0, 0), Link::order_only(1, 0));
    let elsewhere = Link { child: 2, ..offset };
    let placed = Link {
        position: 2,
        ..order_only
    };
    let kinds = [0, 1, 2, u32::MAX].map(|kind| Link {
        kind: LinkKind::Unknown(kind),
        ..order_only
    });
    let twice = [[offset, offset], [order_only, order_only]];
    let others = [[offset, elsewhere], [offset, placed]];
    let of_no_kind = kinds.map(|link| [offset, link]);
    for links in [&twice[..], &others, &of_no_kind].concat() {
        assert_eq!(store.add_links(links), Err(Refusal::Unsound));
    }
    assert_eq!(store, three());
    assert_eq!(store.add_links([order_only, offset]), Ok(()));
}

#[test]
fn room_is_exact() {
    let mut store = three();
    assert_eq!(store.room(), Room::default());
    let room = Room {
        data: 10,
        objects: 3,
        links: 2,
    };
    store.reserve(room);
    assert_eq!(store.room(), room);
    store.add_object(&[5; 4]).unwrap();
    store.add_link(3, 0, 0).unwrap();
    let left = Room {
        data: 6,
        objects: 2,
        links: 1,
    };
    assert_eq!(store.room(), left);
    let (data, objects, links, counts) = store.into_parts();
    assert_eq!([data.len(), objects.len(), links.len()], [34, 12, 10]);
    assert_eq!(counts, [28, 4, 1]);
}

/// Room never goes past the maxima, and can be given back.
#[test]
fn room_ends_at_the_maxima() {
    let mut store = three();
    store.reserve(Room {
        data: usize::MAX,
        objects: usize::MAX,
        links: usize::MAX,
    });
    let most = Room::MOST;
    let room = Room {
        data: most.data - 24,
        objects: most.objects - 3,
        links: most.links,
    };
    assert_eq!(store.room(), room);
    store.reserve(Room::default());
    assert_eq!(store, three());
}

#[test]
fn data_end_at_the_maximum() {
    let mut store = three();
    let rest = vec![0; Room::MOST.data - 24];
    let longer = vec![0; Room::MOST.data - 23];
    assert_eq!(store.add_object(&longer), Err(Refusal::NoRoom));
    assert_eq!(store, three());
    assert_eq!(store.add_object(&rest), Ok(3));
    assert_eq!(store.add_object(&[0]), Err(Refusal::NoRoom));
    assert_eq!(store.add_object(&[]), Ok(4));
    assert!(store.view().is_sound());
}

/// As many objects and links as there can be, and one more.
#[test]
fn rows_end_at_the_maxima() {
    let [objects, links] = [Room::MOST.objects as u32, Room::MOST.links as u32];
    let mut store = Store::new();
    for number in 0..objects {
        assert_eq!(store.add_object(&[0; 8]), Ok(number));
    }
    assert_eq!(store.add_object(&[]), Err(Refusal::NoRoom));
    // Of each eight links seven are offsets.
    let nth = |n: u32| match n % 8 {
        7 => Link::order_only(n / 8, n % objects),
        position => Link::offset(n / 8, position, n % objects),
    };
    store.add_links((0..links - 1).rev().map(nth)).unwrap();
    let [last, past] = [nth(links - 1), nth(links)];
    assert_eq!(store.add_links([last, past]), Err(Refusal::NoRoom));
    assert_eq!(add(&mut store, last), Ok(()));
    assert_eq!(add(&mut store, past), Err(Refusal::NoRoom));
    let order_only = Link::order_only(past.parent, 0);
    assert_eq!(add(&mut store, order_only), Err(Refusal::NoRoom));
    assert_eq!(store.view().links().len(), links as usize);
    assert!(store.view().is_sound());
}

#[test]
fn parts_that_are_sound() {
    let mut store = three();
    store.add_links(LINKS).unwrap();
    let (data, objects, links, counts) = store.clone().into_parts();
    assert_eq!(links, ROWS.as_flattened());
    let same = Store::from_parts(data.clone(), objects.clone(), links.clone(), counts);
    assert_eq!(same, Ok(store));
    let swapped = [&links[5..10], &links[..5], &links[10..]].concat();
    let unsound = Store::from_parts(data, objects, swapped, counts);
    assert_eq!(unsound, Err(Refusal::Unsound));
}

/// A view of anything is read as far as it goes.
#[test]
fn views_of_anything() {
    let (data, links) = ([1, 2, 3], [7; 14]);
    let objects = [0, 2, 2, 9, 3, 1, 1];
    let counts = [u32::MAX; 3];
    let view = StoreRef::new(&data, &objects, &links, &counts);
    assert!(!view.is_sound());
    assert_eq!(view.data(), data);
    assert_eq!(view.object(0), Some(&data[..2]));
    assert_eq!([1, 2, 3].map(|number| view.object(number)), [None; 3]);
    let link = Link {
        kind: LinkKind::Unknown(7),
        ..Link::offset(7, 7, 7)
    };
    assert!(view.links().eq([link; 2]));
    assert_eq!([view.offsets_of(7).len(), view.orders_of(7).len()], [0; 2]);
    assert_eq!([view.child(8, 7), view.child(7, 7)], [None; 2]);
}
