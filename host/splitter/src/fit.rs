//! What a table takes, and whether that is within the limit.

use crate::{
    explain::{self, Part},
    pieces::{pieces, Piece},
    table::{row_size, word, TableRef},
    Kind, Reach, StoreRef,
};
use std::ops::Range;

/// What a table takes, by the count that the limit is about.
///
/// | kind | what is counted |
/// |---|---|
/// | pairs, format 1 | the table, its coverage, and all that the links of its pair sets' slots reach |
/// | pairs, format 2 | the table, all that the links of its rows reach, and its coverage and both class definitions but for the largest of these three |
/// | marks on bases | the table, both coverages, both arrays, and all that the links of the arrays reach |
///
/// What links reach is counted once each, whatever else it is. It is a count and no layout.
///
/// A split by [`Edition::Second`](crate::Edition) leaves no table of two or more items that is past the
/// limit. One by [`Edition::First`](crate::Edition) may.
///
/// ```
/// use splitter::{split, Edition, Kind, Past, Refusal, Scratch, Store};
///
/// // Three glyphs with a pair each. The sets of the first two lead to one object of 65,502 bytes.
/// let mut store = Store::new();
/// let table = store.add_object(&[0, 1, 0, 0, 0, 4, 0, 0, 0, 3, 0, 0, 0, 0, 0, 0])?;
/// let coverage = store.add_object(&[0, 1, 0, 3, 0, 10, 0, 20, 0, 30])?;
/// let shared = store.add_object(&[0; 65_502])?;
/// store.add_link(table, 2, coverage)?;
/// for slot in [10, 12, 14] {
///     let pair_set = store.add_object(&[0, 1, 0, 70, 0, 5])?;
///     store.add_link(table, slot, pair_set)?;
///     if slot < 14 {
///         store.add_link(pair_set, 4, shared)?;
///     }
/// }
///
/// // By edition 1 the second set costs 6 bytes, so that the third one seems to have room beside it.
/// let scratch = &mut Scratch::new();
/// let first = split(&mut store.clone(), table, Edition::First, scratch)?;
/// assert_eq!(first.len(), 1);
/// let fits = Kind::Pairs.fits_at(&store, table, &[1]).unwrap();
/// assert_eq!([fits[0].bytes, fits[1].bytes], [65_526, 65_536]);
/// assert_eq!(fits[1].past, Some(Past::Together));
///
/// let second = split(&mut store, table, Edition::Second, scratch)?;
/// assert_eq!(second.len(), 2);
/// for table in [table, second[0], second[1]] {
///     assert!(Kind::Pairs.fit(&store, table).unwrap().is_within());
/// }
/// # Ok::<(), Refusal>(())
/// ```
#[derive(Clone, Debug, PartialEq, Eq, Hash)]
pub struct Fit {
    /// The items that it has, as the table that was asked for numbers them.
    pub items: Range<usize>,
    /// What it takes.
    pub bytes: usize,
    /// Why that is past the limit, if it is.
    pub past: Option<Past>,
}

/// Why a table is past the limit.
#[derive(Clone, Copy, Debug, PartialEq, Eq, Hash)]
pub enum Past {
    /// Its base coverage leaves no room for any item: no cut helps.
    BaseCoverage,
    /// A single item is too large by itself: no cut helps.
    OneItem,
    /// It is not cut, and a coverage or class definition of its own is longer than a split would write it.
    LongParts,
    /// Its empty slots make it so, for which [`Edition::First`](crate::Edition) counts nothing.
    EmptySlots,
    /// Several items are too large together. Of a table that a split has left: what its first item shares
    /// with items before the cut, [`Edition::First`](crate::Edition) has not measured.
    Together,
}

impl Fit {
    /// The most that a table within the limit takes.
    pub const LIMIT: usize = 65_535;

    /// Whether it is within the limit.
    pub const fn is_within(&self) -> bool {
        self.past.is_none()
    }
}

impl Kind {
    /// What a table of this kind takes as it stands.
    ///
    /// Nothing where it has a format that is not split, or where it or a part of it cannot be read. Of a
    /// table that a split refuses for another reason the number means nothing.
    pub fn fit<'a>(self, store: impl Into<StoreRef<'a>>, table: u32) -> Option<Fit> {
        Counted::new(self, store.into(), table).map(Counted::uncut)
    }

    /// What the tables would take that these cuts make of a table of this kind, the kept one first. With
    /// no cut it is the table as it stands.
    ///
    /// Nothing where [`fit`](Self::fit) gives nothing, and where the cuts do not ascend or are no items of
    /// the table.
    pub fn fits_at<'a>(
        self,
        store: impl Into<StoreRef<'a>>,
        table: u32,
        cuts: &[u16],
    ) -> Option<Vec<Fit>> {
        let counted = Counted::new(self, store.into(), table)?;
        let cuts: Vec<usize> = cuts.iter().map(|&cut| cut.into()).collect();
        let ascend = cuts.windows(2).all(|cuts| cuts[0] < cuts[1]);
        match cuts.last() {
            None => Some(vec![counted.uncut()]),
            Some(&last) if ascend && last < counted.table.items() => Some(counted.cut_at(&cuts)),
            Some(_) => None,
        }
    }
}

/// A table that can be read, while it is counted.
struct Counted<'a> {
    table: TableRef<'a>,
    /// The items' links, in the order of items: the item, and what the link leads to.
    links: Vec<(usize, u32)>,
    reach: Reach<'a>,
}

impl<'a> Counted<'a> {
    fn new(kind: Kind, store: StoreRef<'a>, table: u32) -> Option<Self> {
        let table = TableRef { kind, store, table };
        explain::is_readable(table).then(|| Self {
            links: item_links(&table),
            table,
            reach: Reach::new(store),
        })
    }

    /// The table as it stands.
    fn uncut(mut self) -> Fit {
        let own_parts: &[Part] = match (self.table.kind, self.table.format()) {
            (Kind::Pairs, 1) => &[Part::Coverage],
            (Kind::Pairs, _) => &[Part::Coverage, Part::ClassDef1],
            (Kind::Marks, _) => &[Part::MarkCoverage, Part::MarkArray, Part::BaseArray],
        };
        let own_parts = own_parts.iter().map(|&part| self.table.part_bytes(part));
        let own_parts: Vec<usize> = own_parts.map(<[u8]>::len).collect();
        let items = 0..self.table.items();
        let bytes = self.bytes(&items, self.table.bytes().len(), &own_parts);
        let past = (bytes > Fit::LIMIT).then(|| {
            let written = self.written(&pieces(self.table, &[])[0]);
            self.past(&items, written)
        });
        Fit { items, bytes, past }
    }

    /// The tables that cuts make of it.
    fn cut_at(mut self, cuts: &[usize]) -> Vec<Fit> {
        let pieces = pieces(self.table, cuts).into_iter();
        let fit = |piece: Piece| {
            let bytes = self.written(&piece);
            let past = (bytes > Fit::LIMIT).then(|| self.past(&piece.items, bytes));
            Fit {
                items: piece.items,
                bytes,
                past,
            }
        };
        pieces.map(fit).collect()
    }

    /// Why a table of these items is past the limit, which takes so much as a split writes it.
    fn past(&mut self, items: &Range<usize>, written: usize) -> Past {
        if self.written(&Piece::of_nothing(self.table)) > Fit::LIMIT {
            return Past::BaseCoverage;
        }
        if written <= Fit::LIMIT {
            return Past::LongParts;
        }
        // An empty slot costs 2 bytes, and 2 of coverage at most.
        let full = self.full_items(items);
        let without_empty = written.saturating_sub(4 * (items.len() - full.len()));
        match full[..] {
            [item] if self.slot_alone(item) > Fit::LIMIT || items.len() == 1 => Past::OneItem,
            _ if without_empty <= Fit::LIMIT => Past::EmptySlots,
            _ => Past::Together,
        }
    }

    /// Those of some items that are not empty slots: in format 1 of pairs alone there are such.
    fn full_items(&self, items: &Range<usize>) -> Vec<usize> {
        match (self.table.kind, self.table.format()) {
            (Kind::Pairs, 1) => {
                let links = self.links[self.range_of(items)].iter();
                let mut full: Vec<usize> = links.map(|&(item, _)| item).collect();
                full.dedup();
                full
            }
            _ => items.clone().collect(),
        }
    }

    /// What a table of a single slot takes, with a coverage of a single glyph.
    fn slot_alone(&mut self, item: usize) -> usize {
        12 + 6 + self.reached(&(item..item + 1))
    }

    /// What a piece takes as a split writes it.
    fn written(&mut self, piece: &Piece) -> usize {
        self.bytes(&piece.items, piece.table(), &piece.own_parts())
    }

    /// What a table of these items takes, with so many bytes of its own, and in its own parts.
    fn bytes(&mut self, items: &Range<usize>, table: usize, own_parts: &[usize]) -> usize {
        let own: usize = own_parts.iter().sum();
        let parts = match (self.table.kind, self.table.format()) {
            (Kind::Pairs, 1) => own,
            (Kind::Pairs, _) => {
                let class_def2 = self.table.part_bytes(Part::ClassDef2).len();
                let largest = own_parts.iter().copied().fold(class_def2, usize::max);
                own + class_def2 - largest
            }
            (Kind::Marks, _) => own + self.table.part_bytes(Part::BaseCoverage).len(),
        };
        table + parts + self.reached(items)
    }

    /// The bytes of all that the links of these items reach.
    fn reached(&mut self, items: &Range<usize>) -> usize {
        self.reach.forget();
        let links = self.links[self.range_of(items)].iter();
        links.map(|&(_, child)| self.reach.add(child)).sum()
    }

    /// Where the links of these items stand.
    fn range_of(&self, items: &Range<usize>) -> Range<usize> {
        let place = |item: usize| self.links.partition_point(|&(other, _)| other < item);
        place(items.start)..place(items.end)
    }
}

/// The links of all items, in the order of these: the item, and what the link leads to.
fn item_links(table: &TableRef) -> Vec<(usize, u32)> {
    let links = |parent: Option<u32>, item_at: &dyn Fn(usize) -> Option<usize>| {
        let links = parent.into_iter().flat_map(|it| table.store.offsets_of(it));
        let links = links.filter_map(|link| Some((item_at(link.position as usize)?, link.child)));
        links.collect::<Vec<_>>()
    };
    let items = table.items();
    let mut links = match (table.kind, table.format()) {
        (Kind::Pairs, 1) => links(Some(table.table), &|at| Some(at.checked_sub(10)? / 2)),
        (Kind::Pairs, _) => {
            let row = row_size(table.bytes());
            links(Some(table.table), &|at| {
                at.checked_sub(16)?.checked_div(row)
            })
        }
        (Kind::Marks, _) => {
            // A mark's class stands before its anchor, and a base has an anchor a class.
            let [marks, bases] = [Part::MarkArray, Part::BaseArray].map(|part| table.part(part));
            let classes = marks.map_or(&[][..], |(_, bytes)| bytes);
            let of_marks = links(marks.map(|(marks, _)| marks), &|at| {
                Some(word(classes, at.checked_sub(2)?))
            });
            let of_bases = links(bases.map(|(bases, _)| bases), &|at| {
                (at.checked_sub(2)? / 2).checked_rem(items)
            });
            [of_marks, of_bases].concat()
        }
    };
    links.retain(|&(item, _)| item < items);
    links.sort_by_key(|&(item, _)| item);
    links
}
