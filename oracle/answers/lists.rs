//! The lists of an answer: the only place of the oracle that says which there are.
//!
//! It is an account of its own, from docs/FORMAT.md. The library's crate has such a table too, and
//! nothing is taken from there: what is compared with the library must not come from it.

// The lists' numbers. A list keeps its number, whatever becomes of the others.
pub const PROVIDERS: u32 = 1;
pub const DESCRIPTORS: u32 = 2;
pub const UNKNOWN2: u32 = 3;
pub const TABLES: u32 = 4;
pub const DEFINITIONS: u32 = 5;
pub const EVENTS: u32 = 6;
pub const MAPS: u32 = 7;
pub const MAP_ENTRIES: u32 = 8;
pub const TEMPLATES: u32 = 9;
pub const UNKNOWN_ELEMENTS: u32 = 10;
pub const ITEMS: u32 = 12;

/// The list that a lookup by key fills. It has a number, but no row: no answer to a blob has it.
pub const GUIDS: u32 = 11;

pub struct Row {
    pub number: u32,
    /// The words of one entry.
    pub words: usize,
}

/// The lists in the order in which areas, capacities and counts have them. Where a list stands
/// doesn't follow from its number: `row_of` finds it.
pub const ROWS: &[Row] = &[
    row(PROVIDERS, 9),
    row(DESCRIPTORS, 3),
    row(UNKNOWN2, 1),
    row(TABLES, 9),
    row(DEFINITIONS, 13),
    row(EVENTS, 16),
    row(MAPS, 12),
    row(MAP_ENTRIES, 2),
    row(TEMPLATES, 13),
    row(UNKNOWN_ELEMENTS, 4),
    row(ITEMS, 10),
];

/// How many lists there are.
pub const LISTS: usize = ROWS.len();

const fn row(number: u32, words: usize) -> Row {
    Row { number, words }
}

/// In which row the list with a number stands.
pub fn row_of(number: u32) -> usize {
    let found = ROWS.iter().position(|row| row.number == number);
    found.unwrap_or_else(|| panic!("no list {number}"))
}

/// The words that areas with room for so many entries need: those of the first lists, or of all.
pub fn areas(capacities: &[u32]) -> usize {
    let each = capacities.iter().zip(ROWS);
    each.map(|(&capacity, row)| capacity as usize * row.words)
        .sum()
}
