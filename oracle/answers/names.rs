//! How often each sort of name comes, in each kind of entry that has one, and each form of long ones.

use std::fmt;

use crate::Answer;
use crate::lists::{DEFINITIONS, ITEMS, MAPS};

/// What an entry says of its name.
#[derive(Clone, Copy)]
pub struct Name {
    pub offset: u32,
    start: u32,
    pub units: u32,
    /// 1 where a zero unit ended it, else 0.
    pub ended: u32,
}

/// The kinds of entries that have a name.
const KINDS: [&str; 7] = ["CHAN", "KEYW", "LEVL", "OPCO", "TASK", "VMAP", "item"];

/// Texts of more units are long: a reader may take four units at a time.
const SHORT: u32 = 4;

const SORTS: [&str; 7] = [
    "a lone zero unit",
    "ended by a zero unit",
    "long, ended by a zero unit",
    "of size 4",
    "run out",
    "long, run out",
    "absent",
];

/// How a long name ends. With three units behind it the zero unit stands in four whole ones, at
/// whatever place of them.
const ENDS: [&str; 3] = [
    "run out",
    "ended by a zero unit",
    "ended, with three units or more behind the zero unit",
];

/// How it ends, how many units the text has past whole fours, and whether a pair is last.
type Forms = [[[u64; 2]; 4]; ENDS.len()];

impl Name {
    /// That of an entry of a list, and of which kind the entry is; nothing if it can't have one.
    pub fn of(list: u32, entry: &[u32]) -> Option<(usize, Name)> {
        let (kind, first) = match (list, entry[0]) {
            (DEFINITIONS, kind) => {
                let kind = [1, 3, 4, 6, 7].iter().position(|&known| known == kind);
                (kind.expect("a kind of definition"), 4)
            }
            (MAPS, 1) => (5, 4),
            (ITEMS, _) => (6, 6),
            _ => return None,
        };
        let name = Name {
            offset: entry[first],
            start: entry[first + 1],
            units: entry[first + 2],
            ended: entry[entry.len() - 1],
        };
        Some((kind, name))
    }

    /// Which of `SORTS` it is.
    fn sort(self) -> usize {
        let length = match self.units {
            0 => 0,
            1..=SHORT => 1,
            _ => 2,
        };
        match (self.offset, self.ended) {
            (0, _) => 6,
            (_, 0) => 3 + length,
            _ => length,
        }
    }

    /// Which of `ENDS` it has.
    fn end(self, blob: &[u8]) -> usize {
        let at = self.offset as usize;
        let size = u32::from_le_bytes(blob[at..at + 4].try_into().expect("four bytes"));
        // The zero unit is one of them.
        let behind_text = (size - 4) / 2 - self.units;
        match self.ended {
            0 => 0,
            _ if behind_text < 4 => 1,
            _ => 2,
        }
    }

    /// Whether each unit of its text is the second half of a pair.
    pub fn pairs(self, blob: &[u8]) -> impl DoubleEndedIterator<Item = bool> {
        let text = &blob[self.start as usize..][..2 * self.units as usize];
        text.chunks_exact(2).map(|unit| unit[1] & 0xfc == 0xdc)
    }

    /// Whether its text is long, and then which of the forms it has.
    pub fn form(self, blob: &[u8]) -> Option<[usize; 3]> {
        let pair = self.pairs(blob).next_back()?;
        let past = self.units as usize % 4;
        (self.units > SHORT).then(|| [self.end(blob), past, usize::from(pair)])
    }
}

/// The names of an answer's entries, each with its kind.
pub fn all(answer: &Answer) -> impl Iterator<Item = (usize, Name)> {
    [DEFINITIONS, MAPS, ITEMS]
        .into_iter()
        .flat_map(|list| answer.entries(list).map(move |entry| (list, entry)))
        .filter_map(|(list, entry)| Name::of(list, entry))
}

/// How many names there were.
#[derive(Default)]
pub struct Names {
    of_kind: [[u64; SORTS.len()]; KINDS.len()],
    long: Forms,
}

impl Names {
    pub fn count(&mut self, blob: &[u8], answer: &Answer) {
        for (kind, name) in all(answer) {
            self.of_kind[kind][name.sort()] += 1;
            if let Some([end, past, pair]) = name.form(blob) {
                self.long[end][past][pair] += 1;
            }
        }
    }

    pub fn add(&mut self, other: &Names) {
        let mine = self.of_kind.as_flattened_mut().iter_mut();
        let theirs = other.of_kind.as_flattened();
        mine.zip(theirs).for_each(|(mine, theirs)| *mine += theirs);
        let mine = self.long.as_flattened_mut().as_flattened_mut().iter_mut();
        let theirs = other.long.as_flattened().as_flattened();
        mine.zip(theirs).for_each(|(mine, theirs)| *mine += theirs);
    }

    /// What never came.
    pub fn missing(&self) -> Vec<String> {
        let mut missing = Vec::new();
        for (kind, sorts) in KINDS.iter().zip(self.of_kind) {
            let never = SORTS.iter().zip(sorts).filter(|(_, times)| *times == 0);
            missing.extend(never.map(|(sort, _)| format!("a name of a {kind}: {sort}")));
        }
        for (end, groups) in ENDS.iter().zip(self.long) {
            for (more, pairs) in groups.into_iter().enumerate() {
                for (last, times) in ["another unit", "a pair"].into_iter().zip(pairs) {
                    if times == 0 {
                        missing.push(format!(
                            "a long name: {end}; {more} units past whole fours, {last} last"
                        ));
                    }
                }
            }
        }
        missing
    }
}

/// A line about all names, one for each kind of entry, and one about the long names.
impl fmt::Display for Names {
    fn fmt(&self, f: &mut fmt::Formatter<'_>) -> fmt::Result {
        let sum = |sort: usize| self.of_kind.iter().map(|sorts| sorts[sort]).sum();
        write_sorts(f, "names", std::array::from_fn(sum))?;
        for (kind, sorts) in KINDS.iter().zip(self.of_kind) {
            write_sorts(f, &format!("  {kind}"), sorts)?;
        }
        let forms = self.long.as_flattened().as_flattened();
        writeln!(
            f,
            "  long ones: {} of {} forms, {} of the rarest",
            forms.iter().sum::<u64>(),
            forms.len(),
            forms.iter().min().unwrap_or(&0)
        )
    }
}

/// A line about the names of each sort.
fn write_sorts(
    f: &mut fmt::Formatter<'_>,
    what: &str,
    [lone, ended, long_ended, bare, ran_out, long_ran_out, absent]: [u64; SORTS.len()],
) -> fmt::Result {
    writeln!(
        f,
        "{what}: {} ended, {lone} of them lone zero units and {long_ended} of over {SHORT} units; \
         {} ran out, {bare} of them of size 4 and {long_ran_out} of over {SHORT} units; {absent} absent",
        lone + ended + long_ended,
        bare + ran_out + long_ran_out
    )
}
