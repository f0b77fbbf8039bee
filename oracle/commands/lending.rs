//! Memory lent to the library, and what must become of it.

use answers::Answer;
use answers::lists::{LISTS, ROWS, areas};
use ducatfeather::raw;
use generator::Rng;

/// Code, field, place, first, second, and a count for each list.
pub type Numbers = [u64; NUMBERS];

/// Where the counts start among them, and how many there are in all. The library has a name for
/// that too; this one is the oracle's own, so that the library is held to it.
pub const COUNTS: usize = 5;
pub const NUMBERS: usize = COUNTS + LISTS;

/// The most entries that a list may have room for.
const MOST: u32 = 65_536;

pub struct Lending {
    pub capacities: [u32; LISTS],
    /// How many words are lent.
    words: usize,
}

impl Lending {
    /// So many words more than the areas need.
    fn new(capacities: [u32; LISTS], more: usize) -> Lending {
        let words = areas(&capacities) + more;
        Lending { capacities, words }
    }

    /// What is needed, as far as there can be room, and not a word more.
    pub fn exact(counts: &[usize; LISTS]) -> Lending {
        Lending::new(counts.map(capacity), 0)
    }

    /// Some entries more in each list, and some words more behind all.
    pub fn roomy(counts: &[usize; LISTS], rng: &mut Rng) -> Lending {
        let capacities = counts.map(|count| capacity(count + rng.below(4)));
        Lending::new(capacities, rng.below(5))
    }

    pub fn most() -> Lending {
        Lending::new([MOST; LISTS], 0)
    }

    /// One list has room for one entry less than it needs.
    pub fn one_short(counts: &[usize; LISTS], rng: &mut Rng) -> Lending {
        let needing: Vec<usize> = (0..LISTS).filter(|&list| counts[list] > 0).collect();
        let mut lending = Lending::roomy(counts, rng);
        let list = rng.pick(&needing);
        lending.capacities[list] = capacity(counts[list] - 1);
        // Words that the area no longer needs are lent all the same.
        lending
    }

    /// Any list may have less room than it needs.
    pub fn several_short(counts: &[usize; LISTS], rng: &mut Rng) -> Lending {
        let capacities = counts.map(|count| match count {
            1.. if rng.chance(40) => capacity(rng.below(count)),
            _ => capacity(count),
        });
        Lending::new(capacities, rng.below(5))
    }

    /// A capacity over the limit, or too few words, one or more.
    pub fn refused(counts: &[usize; LISTS], rng: &mut Rng) -> Lending {
        let mut lending = Lending::roomy(counts, rng);
        let needed = areas(&lending.capacities);
        if needed > 0 && rng.chance(50) {
            lending.words = needed - rng.pick(&[1, 1, needed]);
        } else {
            lending.capacities[rng.below(LISTS)] = rng.pick(&[MOST + 1, 1 << 31, u32::MAX]);
        }
        lending
    }

    /// What the library must answer to bytes that the original answers so.
    pub fn expected(&self, found: &Answer) -> Numbers {
        let mut numbers = [0; NUMBERS];
        let counts = found.counts();
        let too_many = self.capacities.iter().any(|&capacity| capacity > MOST);
        let short = (0..LISTS).find(|&list| counts[list] > self.capacities[list] as usize);
        if found.code == 7 {
            numbers[0] = 7;
        } else if too_many || self.words < areas(&self.capacities) {
            numbers[0] = 8;
        } else if let Some(list) = short {
            let capacity = self.capacities[list].into();
            [numbers[0], numbers[3], numbers[4]] = [9, ROWS[list].number.into(), capacity];
        } else {
            numbers = told(found);
        }
        numbers
    }
}

/// The original's answer as the library tells it.
fn told(found: &Answer) -> Numbers {
    let [code, field, place] = [found.code, found.field, found.place].map(u64::from);
    let mut numbers = [0; NUMBERS];
    numbers[..COUNTS].copy_from_slice(&[code, field, place, found.first, found.second]);
    for (number, count) in numbers[COUNTS..].iter_mut().zip(found.counts()) {
        *number = count as u64;
    }
    numbers
}

/// Asks what bytes need that the original answers so, and says how the answer differs from what
/// must come: the original's, with numbers of entries that stop rising past what can be lent.
pub fn needs(blob: &[u8], found: &Answer) -> Result<(), String> {
    let mut expected = told(found);
    for number in &mut expected[COUNTS..] {
        *number = (*number).min(u64::from(MOST) + 1);
    }
    let mut numbers = [u64::MAX; NUMBERS];
    let code = raw::ducat_needs(blob, &mut numbers);
    if numbers != expected || u64::from(code) != expected[0] {
        return Err(format!(
            "asked what is needed the library gives {code} and answers {numbers:?} instead of {expected:?}"
        ));
    }
    Ok(())
}

/// Room for so many entries, but not more than there can be.
fn capacity(count: usize) -> u32 {
    u32::try_from(count).unwrap_or(MOST).min(MOST)
}

/// Reads with the library. Keeps its memory from one reading to the next.
#[derive(Default)]
pub struct Reader {
    words: Vec<u32>,
    expected: Vec<u32>,
    /// Another pattern each time, so that nothing is right by chance.
    salt: u32,
}

impl Reader {
    /// The lent words, as the last reading left them.
    pub fn words(&self) -> &[u32] {
        &self.words
    }

    /// Whether they still are what that reading had to leave.
    pub fn kept(&self) -> bool {
        self.words == self.expected
    }

    /// Reads the blob, and says how the answer or a lent word differs from what must come.
    pub fn read(
        &mut self,
        blob: &[u8],
        lending: &Lending,
        expected: &Numbers,
        lists: &[Vec<u32>; LISTS],
    ) -> Result<(), String> {
        self.salt = self.salt.wrapping_add(0x9e37_79b9);
        let pattern = (0..lending.words as u32).map(|i| i.wrapping_mul(0x85eb_ca6b) ^ self.salt);
        self.words.clear();
        self.words.extend(pattern);
        self.expected.clone_from(&self.words);
        if expected[0] == 0 {
            let mut start = 0;
            for ((list, capacity), row) in lists.iter().zip(lending.capacities).zip(ROWS) {
                self.expected[start..start + list.len()].copy_from_slice(list);
                start += capacity as usize * row.words;
            }
        }
        // What was in the answer before doesn't matter, and must not stay.
        let mut numbers = [u64::from(self.salt); NUMBERS];
        let code = raw::ducat_read(blob, &mut self.words, &lending.capacities, &mut numbers);
        let lent = format_args!(
            "capacities {:?}, {} words",
            lending.capacities, lending.words
        );
        if numbers != *expected || u64::from(code) != expected[0] {
            return Err(format!(
                "with {lent} the library gives {code} and answers {numbers:?} instead of {expected:?}"
            ));
        }
        let pairs = self.words.iter().zip(&self.expected);
        if let Some((place, (found, right))) = pairs.enumerate().find(|(_, (a, b))| a != b) {
            return Err(format!(
                "with {lent} word {place} is {found} instead of {right}, answer {numbers:?}"
            ));
        }
        Ok(())
    }
}
