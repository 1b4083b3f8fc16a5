//! A set of integers.

use std::{marker::PhantomData, ops::RangeInclusive};

const WORD_BITS: u32 = u64::BITS;
const PAGE_WORDS: usize = 8;
const PAGE_BITS: u32 = PAGE_WORDS as u32 * WORD_BITS;

/// A number that can be in a set.
pub trait Domain: Copy {
    /// The number, widened.
    fn to_u32(self) -> u32;

    /// The number that was widened to this.
    fn from_u32(value: u32) -> Self;
}

impl Domain for u16 {
    fn to_u32(self) -> u32 {
        self.into()
    }

    fn from_u32(value: u32) -> Self {
        value as u16
    }
}

impl Domain for u32 {
    fn to_u32(self) -> u32 {
        self
    }

    fn from_u32(value: u32) -> Self {
        value
    }
}

/// A set of integers: pages of bits in order, none of them empty.
#[derive(Clone, Debug)]
pub struct IntSet<T> {
    pages: Vec<Page>,
    len: u64,
    domain: PhantomData<T>,
}

#[derive(Clone, Debug)]
struct Page {
    number: u32,
    words: [u64; PAGE_WORDS],
}

impl<T: Domain> IntSet<T> {
    /// A set of nothing.
    pub fn empty() -> Self {
        Self {
            pages: Vec::new(),
            len: 0,
            domain: PhantomData,
        }
    }

    /// Adds a number, and says whether it is new.
    pub fn insert(&mut self, value: T) -> bool {
        let value = value.to_u32();
        let place = self.ensure_page(value / PAGE_BITS);
        let bit = value % PAGE_BITS;
        let word = &mut self.pages[place].words[(bit / WORD_BITS) as usize];
        let mask = 1 << (bit % WORD_BITS);
        let is_new = *word & mask == 0;
        *word |= mask;
        self.len += u64::from(is_new);
        is_new
    }

    /// Adds all numbers of another set.
    pub fn union(&mut self, other: &Self) {
        for page in &other.pages {
            let place = self.ensure_page(page.number);
            for (word, more) in self.pages[place].words.iter_mut().zip(page.words) {
                self.len += u64::from((more & !*word).count_ones());
                *word |= more;
            }
        }
    }

    /// Takes all numbers out.
    pub fn clear(&mut self) {
        self.pages.clear();
        self.len = 0;
    }

    /// How many numbers there are.
    pub fn len(&self) -> u64 {
        self.len
    }

    /// Whether there are none.
    pub fn is_empty(&self) -> bool {
        self.len == 0
    }

    /// The least number.
    pub fn first(&self) -> Option<T> {
        let (base, word) = self.words().next()?;
        Some(T::from_u32(base + word.trailing_zeros()))
    }

    /// The greatest number.
    pub fn last(&self) -> Option<T> {
        let (base, word) = self.words().next_back()?;
        Some(T::from_u32(base + word.ilog2()))
    }

    /// The numbers in order.
    pub fn iter(&self) -> impl Iterator<Item = T> + '_ {
        self.runs()
            .flat_map(|(first, last)| (first..=last).map(T::from_u32))
    }

    /// The runs of numbers that follow one another, in order.
    pub fn iter_ranges(&self) -> impl Iterator<Item = RangeInclusive<T>> + '_ {
        self.runs()
            .map(|(first, last)| T::from_u32(first)..=T::from_u32(last))
    }

    /// The runs as first and last number, found a word at a time.
    fn runs(&self) -> impl Iterator<Item = (u32, u32)> + '_ {
        let mut words = self.words();
        let (mut base, mut word) = (0, 0);
        std::iter::from_fn(move || {
            if word == 0 {
                (base, word) = words.next()?;
            }
            let first = base + word.trailing_zeros();
            loop {
                let start = word.trailing_zeros();
                let end = start + (word >> start).trailing_ones();
                let last = base + (end - 1);
                word &= u64::MAX.checked_shl(end).unwrap_or(0);
                if end < WORD_BITS {
                    return Some((first, last));
                }
                let Some(next) = words.next() else {
                    return Some((first, last));
                };
                (base, word) = next;
                if base - last != 1 || word & 1 == 0 {
                    return Some((first, last));
                }
            }
        })
    }

    /// The words that are not 0, each with the number of its lowest bit.
    fn words(&self) -> impl DoubleEndedIterator<Item = (u32, u64)> + '_ {
        self.pages
            .iter()
            .flat_map(|page| {
                let base = page.number * PAGE_BITS;
                let numbered = page.words.iter().enumerate();
                numbered.map(move |(i, &word)| (base + i as u32 * WORD_BITS, word))
            })
            .filter(|(_, word)| *word != 0)
    }

    /// The place of a page, which is added where it is missing.
    fn ensure_page(&mut self, number: u32) -> usize {
        match self.pages.binary_search_by_key(&number, |page| page.number) {
            Ok(place) => place,
            Err(place) => {
                let words = [0; PAGE_WORDS];
                self.pages.insert(place, Page { number, words });
                place
            }
        }
    }
}
