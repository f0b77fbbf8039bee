//! The lists of a reading.

use std::fmt;

/// A list, by its number.
#[derive(Clone, Copy, Debug, PartialEq, Eq, Hash)]
#[non_exhaustive]
pub enum List {
    /// The block's providers.
    Providers = 1,
    /// The descriptors of the providers' elements.
    Descriptors = 2,
    /// Words of the providers whose meaning isn't known.
    Unknown2 = 3,
    /// The providers' tables.
    Tables = 4,
    /// The records of CHAN, KEYW, LEVL, OPCO and TASK.
    Definitions = 5,
    /// The records of EVNT.
    Events = 6,
    /// The maps of MAPS.
    Maps = 7,
    /// The entries of VMAPs.
    MapEntries = 8,
    /// The templates of TTBL.
    Templates = 9,
    /// Elements that are no tables of a known kind.
    UnknownElements = 10,
    /// The items of templates.
    Items = 12,
}

/// The lists in the order of their areas, capacities and counts: each with the words of one entry
/// and its name. A list's place here doesn't follow from its number.
const TABLE: &[(List, usize, &str)] = &[
    (List::Providers, 9, "providers"),
    (List::Descriptors, 3, "descriptors"),
    (List::Unknown2, 1, "unknown2 words"),
    (List::Tables, 9, "tables"),
    (List::Definitions, 13, "definitions"),
    (List::Events, 16, "events"),
    (List::Maps, 12, "maps"),
    (List::MapEntries, 2, "map entries"),
    (List::Templates, 13, "templates"),
    (List::UnknownElements, 4, "unknown elements"),
    (List::Items, 10, "items"),
];

/// How many lists there are.
pub(crate) const LISTS: usize = TABLE.len();

impl List {
    /// The lists, in the order of their areas.
    pub fn all() -> impl ExactSizeIterator<Item = List> {
        TABLE.iter().map(|row| row.0)
    }

    /// The list's number.
    pub const fn number(self) -> u32 {
        self as u32
    }

    /// The words of one entry.
    pub const fn words(self) -> usize {
        TABLE[self.position()].1
    }

    /// Its place in the table.
    pub(crate) const fn position(self) -> usize {
        let mut place = 0;
        while TABLE[place].0.number() != self.number() {
            place += 1;
        }
        place
    }

    /// The list with a number, if there is one.
    pub(crate) fn numbered(number: u64) -> Option<List> {
        List::all().find(|list| u64::from(list.number()) == number)
    }
}

impl fmt::Display for List {
    fn fmt(&self, f: &mut fmt::Formatter<'_>) -> fmt::Result {
        f.write_str(TABLE[self.position()].2)
    }
}
