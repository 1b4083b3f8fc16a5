//! What the samples are good for.

use super::*;
use crate::command::look::Look;
use splitter::{read_mark, read_pair, Edition::First, Kind, Lookup};

/// Each is cut into three tables at least, and has devices and objects that are shared. The pieces are
/// all of the table.
#[test]
fn samples_are_worth_a_look() {
    for (example, format) in examples(None).unwrap().into_iter().zip([1, 2, 1, 1]) {
        let Example { store, table, .. } = example;
        let view = store.view();
        assert_eq!(view.object(table.number).unwrap()[..2], [0, format]);
        let cuts = table
            .kind
            .cut_plan(&store, table.number, First, &mut Scratch::new());
        let cuts = cuts.unwrap();
        assert!(cuts.len() >= 2);
        let look = Look::at(view, table).unwrap();
        let pieces = look.piece_bytes(view, &look.pieces(&cuts));
        assert_eq!(pieces.iter().sum::<usize>(), look.all_bytes);
        let children = view.links().map(|link| link.child);
        let mut uses = vec![0; view.counts()[1] as usize];
        children.for_each(|child| uses[child as usize] += 1);
        assert!(uses.iter().filter(|&&uses| uses > 1).count() >= 3);
    }
}

/// Marks in no order of classes, a class without marks, and anchors that are missing on both sides.
#[test]
fn marks_as_fonts_have_them() {
    let Example { store, table, .. } = example(Which::Marks).unwrap();
    assert_eq!(table.kind, Kind::Marks);
    let view = store.view();
    let part = |position| view.child(table.number, position).unwrap();
    let array = view.object(part(8)).unwrap();
    let classes: Vec<u8> = array[2..].chunks(4).map(|record| record[1]).collect();
    assert!(!classes.is_sorted());
    let class_count = view.object(table.number).unwrap()[7];
    assert!((0..class_count - 1).all(|class| classes.contains(&class)));
    assert!(!classes.contains(&(class_count - 1)));
    assert!(view.offsets_of(part(8)).len() < classes.len());
    let [marks, bases] = [900..972, 400..570];
    let all = marks.flat_map(|mark| bases.clone().map(move |base| (mark, base)));
    let read = |(mark, base)| read_mark(&store, table.number, mark, base).unwrap();
    let found = all.step_by(7).filter_map(read).count();
    assert!((800..1_300).contains(&found), "{found}");
}

/// The lookup lists the table first and another one behind it, which has pairs that the table does not have
/// and others for the same glyphs.
#[test]
fn a_lookup_of_two_subtables() {
    let Example {
        store, table, list, ..
    } = example(Which::Lookups).unwrap();
    let view = store.view();
    let lookup = view.child(list.unwrap(), 2).unwrap();
    let subtables: Vec<u32> = Lookup::read(&store, lookup).unwrap().subtables().collect();
    assert_eq!((subtables.len(), subtables[0]), (2, table.number));
    let read = |table, first, second| read_pair(&store, table, first, second).unwrap().is_some();
    let glyphs = (36..236).flat_map(|first| (36..220).map(move |second| (first, second)));
    let mut counts = [0; 4];
    for (first, second) in glyphs.step_by(7) {
        let [a, b] = [subtables[0], subtables[1]].map(|table| read(table, first, second));
        counts[usize::from(a) + 2 * usize::from(b)] += 1;
    }
    let [_, _, second_alone, both] = counts;
    assert!(second_alone > 500 && both > 1_000, "{counts:?}");
}
