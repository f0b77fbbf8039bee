//! What an index of some lists holds, worked out the long way.

use std::ops::Range;

use ducatfeather::List;

use super::{ENTRY, Held};

/// "an index of every event with a found template", given the words of each list; nothing where
/// the lists don't fit together, so that writing it gives 10.
pub fn found<'a>(words: impl Fn(List) -> &'a [u32]) -> Option<Held> {
    let rows = |list: List| words(list).chunks(list.words()).collect::<Vec<_>>();
    let [providers, tables] = [List::Providers, List::Tables].map(rows);
    let [events, templates] = [List::Events, List::Templates].map(rows);

    // "10 as a lookup does": of every table entry, whether it is used or not.
    for table in &tables {
        let list = match table[1] {
            1 | 3 | 4 | 6 | 7 => List::Definitions,
            2 => List::Events,
            5 => List::Maps,
            8 => List::Templates,
            _ => return None,
        };
        let there = (table[0] as usize) < providers.len();
        if !there || range(table).end > rows(list).len() {
            return None;
        }
        // "if a kind 8 table's range holds a template of another provider"
        let another = |template: &&[u32]| template[0] != table[0];
        if table[1] == 8 && templates[range(table)].iter().any(another) {
            return None;
        }
    }

    // "A provider's first table entry of a kind is used."
    let first = |provider: usize, kind| {
        let mut own = tables.iter().filter(|table| table[0] as usize == provider);
        own.find(|table| table[1] == kind)
            .map_or(0..0, |table| range(table))
    };
    let mut held = Held {
        counts: providers.iter().map(|provider| provider[8]).collect(),
        entries: Vec::new(),
    };
    for (number, event) in events.iter().enumerate() {
        // "10 for .. an event in no provider's EVNT range or in two"
        let owners = (0..providers.len()).filter(|&provider| first(provider, 2).contains(&number));
        let [owner] = owners.collect::<Vec<_>>()[..] else {
            return None;
        };
        let mut entry = [0; 9];
        entry[0] = owner as u64;
        for (number, &word) in entry[1..7].iter_mut().zip(*event) {
            *number = u64::from(word);
        }
        entry[7] = u64::from(event[6]) + (u64::from(event[7]) << 32);
        entry[8] = u64::from(event[9]);
        // "10 for any event's field past its width"
        let mut fields = entry.into_iter().zip(ENTRY);
        if fields.any(|(number, bits)| u128::from(number) >> bits > 0) {
            return None;
        }
        let mut own = templates[first(owner, 8)].iter();
        if event[9] != 0 && own.any(|template| template[1] == event[9]) {
            held.entries.push(entry);
        }
    }
    Some(held)
}

/// The numbers of a table's entries.
fn range(table: &[u32]) -> Range<usize> {
    let [first, count] = [table[5], table[6]].map(|word| word as usize);
    first..first + count
}
