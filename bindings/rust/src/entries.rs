//! A list's entries, one after another.

use std::iter::FusedIterator;
use std::marker::PhantomData;
use std::ops::Range;

use crate::list::List;
use crate::words::{FromWords, Source, Words};

/// What a list's words are read as. Other crates can't add to the types that have it.
pub trait Entry<'a>: FromWords<'a> {
    /// The list that it is an entry of.
    const LIST: List;
}

/// Entries of a list, in its order: all of them, or some that follow one another.
pub struct Entries<'a, T> {
    /// The words of the whole list.
    list: &'a [u32],
    /// The numbers that these have in it.
    numbers: Range<usize>,
    source: Source<'a>,
    entry: PhantomData<fn() -> T>,
}

impl<'a, T: Entry<'a>> Entries<'a, T> {
    /// The words of one entry.
    const WORDS: usize = T::LIST.words();

    /// All entries of a list: the words are those of whole entries.
    pub(crate) fn new(list: &'a [u32], source: Source<'a>) -> Entries<'a, T> {
        Entries {
            list,
            numbers: 0..list.len() / Self::WORDS,
            source,
            entry: PhantomData,
        }
    }

    /// The entry of a number, counted from 0 at the first of these.
    pub fn get(&self, number: usize) -> Option<T> {
        self.clone().nth(number)
    }

    /// The entries of a range of numbers: of a table, say. It stops where these end.
    pub fn part(&self, range: Range<usize>) -> Entries<'a, T> {
        let end = range.end.min(self.len());
        let start = range.start.min(end);
        let first = self.numbers.start;
        Entries {
            numbers: first + start..first + end,
            ..self.clone()
        }
    }

    fn entry(&self, number: usize) -> T {
        T::from_words(Words {
            number,
            words: &self.list[Self::WORDS * number..][..Self::WORDS],
            source: self.source,
        })
    }
}

impl<'a, T: Entry<'a>> Iterator for Entries<'a, T> {
    type Item = T;

    fn next(&mut self) -> Option<T> {
        self.numbers.next().map(|number| self.entry(number))
    }

    fn nth(&mut self, number: usize) -> Option<T> {
        self.numbers.nth(number).map(|number| self.entry(number))
    }

    fn size_hint(&self) -> (usize, Option<usize>) {
        self.numbers.size_hint()
    }
}

impl<'a, T: Entry<'a>> ExactSizeIterator for Entries<'a, T> {}

impl<'a, T: Entry<'a>> FusedIterator for Entries<'a, T> {}

// Not derived: that would ask for a `T` that can be copied.
impl<T> Clone for Entries<'_, T> {
    fn clone(&self) -> Self {
        Entries {
            numbers: self.numbers.clone(),
            ..*self
        }
    }
}
