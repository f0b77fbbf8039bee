//! Answers to a blob in the port's form: a code, a field code, a place, two numbers and lists of
//! 32-bit words (`lists.rs`). There are two: what the port must answer, and what the original does.
//! They differ in the items of templates alone, and `differences.rs` says how.

use std::fmt;

pub mod differences;
pub mod fields;
pub mod joins;
pub mod lists;
pub mod names;
pub mod tally;
mod temp;

use lists::{LISTS, ROWS, row_of};

// What was read is turned into an answer by the same text twice: the two originals' types have the
// same names, but are not the same.
#[path = "."]
mod whole {
    pub(crate) use original as reader;
    #[path = "convert.rs"]
    pub(crate) mod convert;
}
#[path = "."]
mod amended {
    pub(crate) use ::amended as reader;
    #[path = "convert.rs"]
    pub(crate) mod convert;
}

/// The longest blob that is read; a longer one is code 7, the port's own.
pub const LONGEST: usize = 16_777_216;

#[derive(Clone, Debug, Default, PartialEq, Eq)]
pub struct Answer {
    pub code: u32,
    pub field: u32,
    pub place: u32,
    pub first: u64,
    pub second: u64,
    /// All words of each list, in the order of `ROWS`; empty on a refusal.
    pub lists: [Vec<u32>; LISTS],
}

impl Answer {
    /// How many entries each list has.
    pub fn counts(&self) -> [usize; LISTS] {
        std::array::from_fn(|i| self.lists[i].len() / ROWS[i].words)
    }

    /// The entries of the list with a number.
    pub fn entries(&self, list: u32) -> impl Iterator<Item = &[u32]> {
        let row = row_of(list);
        self.lists[row].chunks_exact(ROWS[row].words)
    }
}

/// One line for the answer; on acceptance one more for each list.
impl fmt::Display for Answer {
    fn fmt(&self, f: &mut fmt::Formatter<'_>) -> fmt::Result {
        write!(f, "{} {} {}", self.code, self.field, self.place)?;
        write!(f, " {} {}", self.first, self.second)?;
        for count in self.counts() {
            write!(f, " {count}")?;
        }
        writeln!(f)?;
        if self.code == 0 {
            for (list, row) in self.lists.iter().zip(ROWS) {
                write!(f, "list {}", row.number)?;
                for word in list {
                    write!(f, " {word}")?;
                }
                writeln!(f)?;
            }
        }
        Ok(())
    }
}

/// What the port must answer to a blob: the original's answer, with items read as the request has
/// it. Code 8 and 9, which are about lent memory, never come.
pub fn answer(blob: &[u8]) -> Answer {
    amended::convert::answer(blob)
}

/// What the original answers, with all its own refusals of items.
pub fn original(blob: &[u8]) -> Answer {
    whole::convert::answer(blob)
}

pub fn refusal(code: u32, field: u32, place: u32, first: u64, second: u64) -> Answer {
    Answer {
        code,
        field,
        place,
        first,
        second,
        ..Answer::default()
    }
}
