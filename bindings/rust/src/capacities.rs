//! How many entries each list has room for, or needs.

use std::fmt;

use crate::list::{LISTS, List};

/// How many entries each list has room for, or needs.
///
/// ```
/// use ducatfeather::{Capacities, List};
///
/// let capacities = Capacities::each(64).with(List::Templates, 1_000);
/// assert_eq!(capacities.of(List::Templates), 1_000);
/// assert_eq!(capacities.of(List::Events), 64);
/// ```
#[derive(Clone, Copy, PartialEq, Eq, Hash)]
pub struct Capacities([u32; LISTS]);

impl Capacities {
    /// The most entries that a list may have room for. More is refused.
    pub const LIMIT: u32 = 65_536;

    /// As much room as there can be.
    pub const MOST: Capacities = Capacities::each(Capacities::LIMIT);

    /// The same room for each list.
    pub const fn each(entries: u32) -> Capacities {
        Capacities([entries; LISTS])
    }

    /// The same room but for one list.
    #[must_use]
    pub const fn with(mut self, list: List, entries: u32) -> Capacities {
        self.0[list.position()] = entries;
        self
    }

    /// The room for a list.
    pub const fn of(&self, list: List) -> u32 {
        self.0[list.position()]
    }

    /// The numbers as the functions of [`raw`](crate::raw) take them: in the order of
    /// [`List::all`].
    pub const fn in_order(&self) -> &[u32] {
        &self.0
    }

    /// How many words the areas need; nothing if a number is over the limit, so that nobody
    /// allocates for what is refused.
    pub fn words(&self) -> Option<usize> {
        let lendable = self.0.iter().all(|&entries| entries <= Self::LIMIT);
        lendable.then(|| self.areas().sum())
    }

    /// In words, where a list's area starts.
    pub(crate) fn start(&self, list: List) -> usize {
        self.areas().take(list.position()).sum()
    }

    /// The words of each area.
    fn areas(&self) -> impl Iterator<Item = usize> {
        let each = List::all().zip(self.0);
        each.map(|(list, entries)| list.words() * entries as usize)
    }

    /// The counts of an answer. None is over 32 bits.
    pub(crate) fn from_counts(counts: [u64; LISTS]) -> Capacities {
        Capacities(counts.map(|count| count as u32))
    }
}

/// Each number beside its list.
impl fmt::Debug for Capacities {
    fn fmt(&self, f: &mut fmt::Formatter<'_>) -> fmt::Result {
        f.debug_map().entries(List::all().zip(self.0)).finish()
    }
}
