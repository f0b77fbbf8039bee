//! How often both originals answer alike, and how often not.

use std::fmt;

use crate::differences::{Case, Compared};
use crate::lists::{ITEMS, row_of};

/// How many blobs both answer alike, and how many are of each case.
#[derive(Default)]
pub struct Tally {
    alike: u64,
    /// Those of them that are accepted and have items.
    with_items: u64,
    /// Of each case all, and those that the port accepts.
    of_case: [[u64; 2]; Case::ALL.len()],
}

impl Tally {
    pub fn count(&mut self, compared: &Compared) {
        let Some(case) = compared.case else {
            self.alike += 1;
            self.with_items += u64::from(!compared.answer.lists[row_of(ITEMS)].is_empty());
            return;
        };
        let [all, accepted] = &mut self.of_case[case as usize];
        *all += 1;
        *accepted += u64::from(compared.answer.code == 0);
    }

    pub fn add(&mut self, other: &Tally) {
        self.alike += other.alike;
        self.with_items += other.with_items;
        let pairs = self.of_case.iter_mut().zip(other.of_case);
        for (mine, theirs) in pairs.flat_map(|(mine, theirs)| mine.iter_mut().zip(theirs)) {
            *mine += theirs;
        }
    }

    /// The cases that no blob was of.
    pub fn missing(&self) -> Vec<Case> {
        let none = |case: &Case| self.of_case[*case as usize][0] == 0;
        Case::ALL.into_iter().filter(none).collect()
    }
}

/// A line about those that are alike, and one for each case.
impl fmt::Display for Tally {
    fn fmt(&self, f: &mut fmt::Formatter<'_>) -> fmt::Result {
        let otherwise: u64 = self.of_case.iter().map(|[all, _]| all).sum();
        writeln!(
            f,
            "the original itself: {} blobs alike, {} of them accepted with items; {otherwise} otherwise:",
            self.alike, self.with_items
        )?;
        for (case, [all, accepted]) in Case::ALL.iter().zip(self.of_case) {
            writeln!(f, "  {case}: {all}, {accepted} of them accepted here")?;
        }
        Ok(())
    }
}
