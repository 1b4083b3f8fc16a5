//! The bytes of a mark table's classes.

use super::{parts::word, Look, BASE_COVERAGE, COVERAGE, PARTS};
use splitter::{Reach, StoreRef};
use std::ops::Range;

/// What a mark class has: bytes in the arrays, and the anchors of its marks and of its column.
#[derive(Clone, Default)]
struct Class {
    bytes: usize,
    anchors: Vec<u32>,
}

/// The bytes of each piece of a mark table. Header, coverages and counts are the first one's.
pub fn piece_bytes(look: &Look, store: StoreRef, pieces: &[Range<usize>]) -> Vec<usize> {
    let classes = classes(look, store);
    let mut reach = Reach::new(store);
    let coverages = [COVERAGE, BASE_COVERAGE].map(|position| {
        let coverage = store.child(look.table.number, position);
        coverage.map_or(0, |coverage| reach.add(coverage))
    });
    let mut before = look.own_bytes + coverages[0] + coverages[1] + 2 + 2;
    let mut all = Vec::new();
    for piece in pieces {
        let mut bytes = std::mem::take(&mut before);
        for class in classes.get(piece.clone()).unwrap_or_default() {
            let anchors = class.anchors.iter().map(|&anchor| reach.add(anchor));
            bytes += class.bytes + anchors.sum::<usize>();
        }
        all.push(bytes);
    }
    all
}

fn classes(look: &Look, store: StoreRef) -> Vec<Class> {
    let column = Class {
        bytes: 2 * look.columns,
        anchors: Vec::new(),
    };
    let mut classes = vec![column; look.items];
    let [marks, bases] = PARTS.map(|position| store.child(look.table.number, position));
    let array = marks.and_then(|marks| store.object(marks));
    let array = array.unwrap_or_default();
    for record in array.get(2..).unwrap_or_default().chunks_exact(4) {
        let class = word(record, 0).and_then(|class| classes.get_mut(class));
        class.into_iter().for_each(|class| class.bytes += 4);
    }
    // A mark's class stands before its anchor, and a base has an anchor a class.
    let of_mark = |position: usize| word(array, position.checked_sub(2)?);
    let of_base = |position: usize| (position.checked_sub(2)? / 2).checked_rem(look.items);
    add_anchors(&mut classes, store, marks, of_mark);
    add_anchors(&mut classes, store, bases, of_base);
    classes
}

/// Adds the anchors that an array leads to, each to the class of its position.
fn add_anchors(
    classes: &mut [Class],
    store: StoreRef,
    array: Option<u32>,
    class_at: impl Fn(usize) -> Option<usize>,
) {
    for link in array.into_iter().flat_map(|array| store.offsets_of(array)) {
        let class = class_at(link.position as usize);
        if let Some(class) = class.and_then(|class| classes.get_mut(class)) {
            class.anchors.push(link.child);
        }
    }
}
