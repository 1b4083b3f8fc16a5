//! Large stores are what they are said to be.

use differential::{
    check::{self, marks_as_the_oracle, Outcome, Split},
    generate::{
        large::{self, Fill, Order, Spread},
        Case,
    },
    lend::{self, Need},
    model::soundness::MAXIMA,
    Archive,
    Edition::{self, First},
    Marks, Random, Tally,
};
use oracle::Store;

/// Objects and links in use, and cuts. After the split all is within the maxima.
fn figures(case: &Case) -> [usize; 3] {
    figures_by(Need::of, case)
}

fn figures_by(need: fn(&Store, u32, Edition) -> Need, case: &Case) -> [usize; 3] {
    let need = need(&case.store, case.table, First);
    let [data, objects, links] = case.store.counts.map(|count| count as usize);
    println!("{data} bytes, {objects} objects, {links} links, {need:?}");
    for (i, in_use) in [data, objects, links].into_iter().enumerate() {
        assert!(in_use + need.room[i] <= MAXIMA[i]);
    }
    [objects, links, need.list]
}

/// Ten times the objects are about ten times the links and the cuts.
#[test]
fn all_grows_as_the_objects_do() {
    for build in [large::format1, large::format2] {
        let figures = |objects| figures(&build(objects, Order::Any, 0));
        let [thousand, ten_thousand] = [1_000, 10_000].map(figures);
        assert_eq!([thousand[0], ten_thousand[0]], [1_000, 10_000]);
        assert!((9..=11).contains(&(ten_thousand[1] / thousand[1])));
        assert!(thousand[2] >= 3 && (9..=12).contains(&(ten_thousand[2] / thousand[2])));
    }
}

/// There is hardly room for a new object more.
#[test]
fn the_largest_just_fit() {
    let order = Order::Made;
    for seed in 0..3 {
        let format1 = large::format1(large::MOST_FORMAT1, order, seed);
        let format2 = large::format2(large::MOST_FORMAT2, order, seed);
        for case in [format1, format2] {
            let [objects, ..] = figures(&case);
            let after = objects + Need::of(&case.store, case.table, First).room[1];
            assert!((65_500..=65_536).contains(&after), "{after}");
        }
    }
}

#[test]
fn few_objects_have_many_links() {
    let [objects, links, cuts] = figures(&large::few_objects(0));
    assert_eq!([objects, links], [300, 33_003]);
    assert!(cuts >= 2);
}

/// Dense, sparse or each in a class of its own, in four objects. What is written is the oracle's.
#[test]
fn many_glyphs_are_cut_in_several_places() {
    for spread in [Spread::Dense, Spread::Sparse, Spread::Alone] {
        for count in [1_000, 10_000, 65_536] {
            let case = large::many_glyphs(count, spread, 0);
            let [objects, links, cuts] = figures(&case);
            assert_eq!([objects, links], [4, 3]);
            assert!(cuts >= 3);
            let covered = match spread {
                Spread::Sparse => count.min(32_768),
                Spread::Dense | Spread::Alone => count,
            };
            assert_eq!(Need::of(&case.store, case.table, First).glyphs, covered);
            let call = lend::exactly(&case.store, case.table, First, &mut Random::new(0));
            let split = Split::by(&Archive, &call);
            assert_eq!(check::as_the_oracle(&split, &mut Tally::default()), Ok(()));
        }
    }
}

/// A thousand anchors and ten thousand, beside five other objects. Both fills have about as many links.
#[test]
fn anchors_grow_with_their_classes() {
    for fill in [Fill::Full, Fill::Sparse] {
        let figures = |anchors| {
            let case = large::marks(anchors, fill, Order::Any, 0);
            assert_eq!(as_the_oracle(&case), Ok(()));
            figures_by(Need::of_marks, &case)
        };
        let [thousand, ten_thousand] = [1_000, 10_000].map(figures);
        assert_eq!([thousand[0], ten_thousand[0]], [1_005, 10_005]);
        assert!((1_500..1_800).contains(&thousand[1]));
        assert!((9..=11).contains(&(ten_thousand[1] / thousand[1])));
        assert!(thousand[2] >= 3 && (9..=13).contains(&(ten_thousand[2] / thousand[2])));
    }
}

fn as_the_oracle(case: &Case) -> Outcome {
    let call = lend::marks_exactly(&case.store, case.table, First, &mut Random::new(0));
    let split = Split::by(&Marks(&Archive), &call);
    marks_as_the_oracle(&split, &mut Tally::default())
}

/// One order-only link for two offsets, and the table is cut where it was.
#[test]
fn a_third_of_the_links_are_order_only() {
    let pairs = [large::format1, large::format2].map(|build| build(1_000, Order::Made, 0));
    let marks = [Fill::Full, Fill::Sparse].map(|fill| large::marks(1_000, fill, Order::Made, 0));
    let needs: [fn(&Store, u32, Edition) -> Need; 2] = [Need::of, Need::of_marks];
    for (cases, need) in [pairs, marks].into_iter().zip(needs) {
        for case in cases {
            let [objects, offsets, cuts] = figures_by(need, &case);
            let with_orders = large::with_orders(case, 0);
            let [same_objects, links, same_cuts] = figures_by(need, &with_orders);
            assert_eq!([same_objects, same_cuts], [objects, cuts]);
            assert!((offsets / 2 - 1..=offsets / 2).contains(&(links - offsets)));
        }
    }
}
