//! Lent words as a reading leaves them, or as it doesn't, filled by hand. No test uses all of it.
#![allow(dead_code)]

use ducatfeather::{Capacities, Kind, List};

/// What stands where nothing was put.
pub const NOT_TOUCHED: u32 = 0x5a5a_5a5a;

/// Words, capacities and counts as a reading leaves them, or as it doesn't.
#[derive(Clone)]
pub struct Lent {
    pub words: Vec<u32>,
    pub capacities: Capacities,
    pub counts: Capacities,
}

impl Lent {
    /// No entries, room for so many of each list, and a word more.
    pub fn new(room: u32) -> Lent {
        let capacities = Capacities::each(room);
        Lent {
            words: vec![NOT_TOUCHED; capacities.words().unwrap() + 1],
            capacities,
            counts: Capacities::each(0),
        }
    }

    /// A word of an entry.
    pub fn word(&mut self, list: List, number: u32, word: usize) -> &mut u32 {
        let start = self.start(list);
        &mut self.words[start + list.words() * number as usize + word]
    }

    /// The words of a list's entries.
    pub fn list(&self, list: List) -> &[u32] {
        &self.words[self.start(list)..][..list.words() * self.counts.of(list) as usize]
    }

    fn start(&self, list: List) -> usize {
        let before = List::all().take_while(|&other| other != list);
        let areas = before.map(|other| other.words() * self.capacities.of(other) as usize);
        areas.sum()
    }

    /// One entry more: these words, at their places, and zeros.
    pub fn put(&mut self, list: List, words: &[(usize, u32)]) -> &mut Lent {
        let number = self.counts.of(list);
        self.counts = self.counts.with(list, number + 1);
        for place in 0..list.words() {
            *self.word(list, number, place) = 0;
        }
        for &(place, value) in words {
            *self.word(list, number, place) = value;
        }
        self
    }

    pub fn provider(&mut self, guid: u32) -> &mut Lent {
        self.put(List::Providers, &[(0, guid)])
    }

    pub fn table(&mut self, provider: u32, kind: Kind, first: u32, count: u32) -> &mut Lent {
        let kind = kind as u32;
        self.put(
            List::Tables,
            &[(0, provider), (1, kind), (5, first), (6, count)],
        )
    }

    pub fn event(&mut self, identifier: u32, offset: u32) -> &mut Lent {
        self.put(List::Events, &[(0, identifier), (9, offset)])
    }

    pub fn template(&mut self, provider: u32, offset: u32, guid: u32) -> &mut Lent {
        self.put(List::Templates, &[(0, provider), (1, offset), (10, guid)])
    }
}

/// So many of the numbers, and zeros where there are no more.
pub fn cut(numbers: &Capacities, length: usize) -> Vec<u32> {
    let mut numbers = numbers.in_order().to_vec();
    numbers.resize(length, 0);
    numbers
}
