//! What must be answered to the blobs of `generator::known::named`, in their order.

use answers::Answer;
use answers::lists::{
    DEFINITIONS, DESCRIPTORS, ITEMS, MAP_ENTRIES, MAPS, PROVIDERS, TABLES, TEMPLATES, row_of,
};

pub fn expected() -> Vec<Answer> {
    vec![
        definitions(b"CHAN", [1, 100, 92], |[offset, start, units, ended]| {
            [1, 1, 0, 3, offset, start, units, 2, 0, 0, 0, 0, ended]
        }),
        definitions(b"KEYW", [3, 100, 92], |[offset, start, units, ended]| {
            [3, 1, 2, 3, offset, start, units, 0, 0, 0, 0, 0, ended]
        }),
        definitions(b"LEVL", [4, 100, 72], |[offset, start, units, ended]| {
            [4, 1, 0, 2, offset, start, units, 0, 0, 0, 0, 0, ended]
        }),
        definitions(b"OPCO", [6, 100, 72], |[offset, start, units, ended]| {
            [6, 1, 0, 2, offset, start, units, 0, 0, 0, 0, 0, ended]
        }),
        definitions(b"TASK", [7, 100, 152], |[offset, start, units, ended]| {
            [7, 1, 0, 2, offset, start, units, 0, 3, 4, 5, 6, ended]
        }),
        maps(),
        items(),
    ]
}

/// Offset, start, units and whether a zero unit ended it, of each sort of name, the first at a place:
/// ended, run out, of size 4, a lone zero unit, none.
fn names(at: u32) -> [[u32; 4]; 5] {
    [
        [at, at + 4, 1, 1],
        [at + 8, at + 12, 2, 0],
        [at + 20, at + 24, 0, 0],
        [at + 28, at + 32, 0, 1],
        [0, 0, 0, 0],
    ]
}

/// A table of definitions, with these words of one by what its name's are.
fn definitions(signature: &[u8; 4], table: [u32; 3], words: fn([u32; 4]) -> [u32; 13]) -> Answer {
    let mut answer = accepted(signature, table, 5);
    answer.lists[row_of(DEFINITIONS)] = names(64).map(words).concat();
    answer
}

fn maps() -> Answer {
    let [vmap, bmap, xmap] = [b"VMAP", b"BMAP", b"XMAP"].map(|s| u32::from_le_bytes(*s));
    let [one, two, three, four, five] = names(64);
    let value_map = |place, first, [offset, start, units, ended]: [u32; 4]| {
        let end = place + 24;
        [
            1, vmap, place, 24, offset, start, units, first, 1, end, 0, ended,
        ]
    };
    let mut maps = accepted(b"MAPS", [5, 100, 192], 7);
    maps.lists[row_of(MAPS)] = [
        value_map(140, 0, one),
        value_map(164, 1, two),
        value_map(188, 2, three),
        value_map(212, 3, four),
        value_map(236, 4, five),
        [2, bmap, 260, 0, 0, 0, 0, 0, 0, 260, 4, 0],
        [3, xmap, 276, 0, 0, 0, 0, 0, 0, 276, 4, 0],
    ]
    .concat();
    maps.lists[row_of(MAP_ENTRIES)] = [[2, 3]; 5].concat();
    maps
}

fn items() -> Answer {
    let mut items = accepted(b"TTBL", [8, 64, 188], 1);
    items.lists[row_of(TEMPLATES)] = vec![0, 76, 176, 5, 5, 116, 0, 0, 0, 0, 0, 116, 0];
    items.lists[row_of(ITEMS)] = names(216)
        .map(|[offset, start, units, ended]| {
            [0, 1, 770, 4, 5, 458_758, offset, start, units, ended]
        })
        .concat();
    items
}

/// One provider with one table, which ends the blob: of a kind, at a place, of a size, with so many
/// entries.
fn accepted(signature: &[u8; 4], [kind, place, size]: [u32; 3], entries: u32) -> Answer {
    let mut answer = Answer {
        first: u64::from(place + size),
        ..Answer::default()
    };
    answer.lists[row_of(PROVIDERS)] = vec![0, 0, 0, 0, 36, 0, 0, 1, 0];
    answer.lists[row_of(DESCRIPTORS)] = vec![place, 0, u32::from_le_bytes(*signature)];
    answer.lists[row_of(TABLES)] = vec![0, kind, place, size, 0, 0, entries, 0, 0];
    answer
}
