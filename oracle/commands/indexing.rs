//! The library's event index of a reading, held against the events and templates that the original
//! finds, and read back.

use answers::Answer;
use answers::joins::Accepted;
use answers::lists::{EVENTS, PROVIDERS, ROWS, TABLES, row_of};
use ducatfeather::raw;
use generator::Rng;

use crate::joining::{Lists, part};

/// The index's number among the lists.
const INDEX: u64 = 15;

#[derive(Default)]
pub struct Totals {
    /// Indexes that were written, and those with entries.
    pub written: u64,
    pub filled: u64,
    /// Events, and those that have an entry.
    pub events: u64,
    pub entries: u64,
    /// Writings that were refused with 10.
    pub apart: u64,
}

impl Totals {
    pub fn add(&mut self, other: &Totals) {
        self.written += other.written;
        self.filled += other.filled;
        self.events += other.events;
        self.entries += other.entries;
        self.apart += other.apart;
    }

    /// What never came.
    pub fn missing(&self) -> Vec<String> {
        let sorts = [
            (self.filled, "an index with entries"),
            (self.events - self.entries, "an event without a template"),
            (self.apart, "lists that no index is written of"),
        ];
        let none = sorts.into_iter().filter(|(times, _)| *times == 0);
        none.map(|(_, sort)| sort.to_string()).collect()
    }
}

/// Writes with the library and reads back. Keeps its memory from one index to the next.
#[derive(Default)]
pub struct Indexer {
    bytes: Vec<u8>,
    numbers: Vec<u32>,
    pub totals: Totals,
}

/// What an index must hold: its bytes, and the words that they are read as.
struct Expected {
    bytes: Vec<u8>,
    words: Vec<u32>,
}

impl Expected {
    /// "edition 1, provider count, each provider's unknown2 count, entry count, then per entry ..";
    /// gives how many entries too.
    fn new(found: &Answer, accepted: &Accepted) -> (Expected, usize) {
        let unknown2: Vec<u32> = found.entries(PROVIDERS).map(|p| p[8]).collect();
        let mut entries = Vec::new();
        for table in found.entries(TABLES).filter(|table| table[1] == 2) {
            let provider = table[0];
            let events = part(found, EVENTS, table[5], table[6]);
            let found = events.filter(|event| {
                event[9] != 0 && accepted.template_at(provider as usize, event[9]).is_some()
            });
            entries.extend(found.map(|event| (provider, event)));
        }
        let mut expected = Expected {
            bytes: vec![1],
            words: Vec::new(),
        };
        expected.word(unknown2.len() as u32);
        unknown2.iter().for_each(|&count| expected.word(count));
        expected.word(entries.len() as u32);
        for &(provider, event) in &entries {
            expected.word(provider);
            event[..6].iter().for_each(|&word| expected.word(word));
            put(
                &mut expected.bytes,
                u64::from(event[6]) | u64::from(event[7]) << 32,
            );
            expected.words.extend(&event[6..8]);
            expected.word(event[9]);
        }
        (expected, entries.len())
    }

    fn word(&mut self, word: u32) {
        put(&mut self.bytes, word.into());
        self.words.push(word);
    }
}

/// Seven bits a byte, the low ones first; the high bit says that more follow.
fn put(bytes: &mut Vec<u8>, mut number: u64) {
    while number > 127 {
        bytes.push(number as u8 | 128);
        number >>= 7;
    }
    bytes.push(number as u8);
}

impl Indexer {
    /// Writes the index of an accepted blob's lists, reads it back, and says how the library
    /// differs.
    pub fn index(
        &mut self,
        lists: &Lists,
        blob: &[u8],
        found: &Answer,
        rng: &mut Rng,
    ) -> Result<(), String> {
        let (expected, entries) = Expected::new(found, &Accepted::new(blob));
        self.totals.written += 1;
        self.totals.filled += u64::from(entries > 0);
        self.totals.events += u64::from(lists.count(EVENTS));
        self.totals.entries += entries as u64;

        let exact = expected.bytes.len();
        for lent in [exact, exact + rng.between(1, 9)] {
            self.write(lists, lent, [0, 0, 0, 0, exact as u64], &expected.bytes)?;
        }
        let short = rng.below(exact);
        self.write(lists, short, [9, 0, INDEX, short as u64, 0], &[])?;

        let exact = expected.words.len();
        let bytes = &expected.bytes;
        self.read(
            bytes,
            exact + rng.below(3),
            [0, 0, 0, 0, exact as u64],
            &expected.words,
        )?;
        let short = rng.below(exact);
        self.read(bytes, short, [9, 0, INDEX, short as u64, 0], &[])?;
        let mut longer = bytes.clone();
        longer.push(rng.word() as u8);
        self.read(&longer, short, [18, bytes.len() as u64, 0, 0, 0], &[])?;
        self.apart(lists, rng)
    }

    /// Lists of which no index is written: an event that is no provider's, one of two providers, a
    /// field past its width. The words are copied.
    fn apart(&mut self, lists: &Lists, rng: &mut Rng) -> Result<(), String> {
        let events = lists.count(EVENTS);
        if events == 0 || lists.words.len() >= 100_000 {
            return Ok(());
        }
        let mut words = lists.words.to_vec();
        let mut tables: Vec<usize> = (0..lists.count(TABLES) as usize)
            .map(|number| lists.area(TABLES) + ROWS[row_of(TABLES)].words * number)
            .filter(|&at| words[at + 1] == 2)
            .collect();
        rng.shuffle(&mut tables);
        let filled = tables.iter().find(|&&at| words[at + 6] > 0);
        let at = *filled.expect("an EVNT with events, since there are some");
        let other = tables.iter().find(|&&other| other != at);
        match (rng.below(3), other) {
            (0, _) => words[at + 6] -= 1,
            (1, Some(&other)) => {
                let [first, count] = [words[at + 5], words[at + 6]];
                [words[other + 5], words[other + 6]] = [first, count];
            }
            _ => {
                let event =
                    lists.area(EVENTS) + ROWS[row_of(EVENTS)].words * rng.below(events as usize);
                let field = rng.below(6);
                let most = if field == 0 || field == 5 {
                    65_535
                } else {
                    255
                };
                words[event + field] = (most + 1).max(rng.word());
            }
        }
        self.totals.apart += 1;
        let lists = Lists {
            words: &words,
            ..*lists
        };
        self.write(&lists, rng.below(40), [10, 0, 0, 0, 0], &[])
    }

    /// Lends so many bytes; the answer and all of them must come out so.
    fn write(
        &mut self,
        lists: &Lists,
        lent: usize,
        expected: [u64; raw::INDEX_NUMBERS],
        bytes: &[u8],
    ) -> Result<(), String> {
        let pattern = |i: usize| (i as u8).wrapping_mul(29) ^ 0x5a;
        self.bytes.clear();
        self.bytes.extend((0..lent).map(pattern));
        let mut answer = [u64::MAX; raw::INDEX_NUMBERS];
        let code = raw::ducat_index_write(
            lists.words,
            &lists.capacities,
            &lists.counts,
            &mut self.bytes,
            &mut answer,
        );
        let kept = (bytes.len()..lent).map(pattern);
        if answer != expected
            || u64::from(code) != expected[0]
            || !bytes
                .iter()
                .copied()
                .chain(kept)
                .eq(self.bytes.iter().copied())
        {
            return Err(format!(
                "with {lent} bytes lent for the index, the library gives {code}, answers {answer:?} \
                 instead of {expected:?}, and leaves {:?} where {bytes:?} are right",
                self.bytes
            ));
        }
        Ok(())
    }

    /// The same of an index that is read back, with so many words lent.
    fn read(
        &mut self,
        bytes: &[u8],
        lent: usize,
        expected: [u64; raw::INDEX_NUMBERS],
        words: &[u32],
    ) -> Result<(), String> {
        let pattern = |i: usize| (i as u32).wrapping_mul(0x85eb_ca6b);
        self.numbers.clear();
        self.numbers.extend((0..lent).map(pattern));
        let mut answer = [u64::MAX; raw::INDEX_NUMBERS];
        let code = raw::ducat_index_read(bytes, &mut self.numbers, &mut answer);
        let kept = (words.len()..lent).map(pattern);
        if answer != expected
            || u64::from(code) != expected[0]
            || !words
                .iter()
                .copied()
                .chain(kept)
                .eq(self.numbers.iter().copied())
        {
            return Err(format!(
                "of the index {bytes:?}, with {lent} words lent, the library gives {code}, answers \
                 {answer:?} instead of {expected:?}, and leaves {:?} where {words:?} are right",
                self.numbers
            ));
        }
        Ok(())
    }
}
