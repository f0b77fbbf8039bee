//! TEMPs, and the items in them. All are accepted; those of a draft that isn't odd by the original
//! too.

use std::ops::Range;

use crate::draft::Draft;
use crate::names;
use crate::rng::Rng;

const HEADER: usize = 40;
const ITEM: usize = 20;
/// Where in an item its name's offset stands.
const NAME: usize = 16;

/// The most items that a TEMP gets, and the most names of its own.
const ITEMS: usize = 8;
const NAMES: usize = 4;

/// A TEMP that isn't ended yet.
pub struct Temp {
    pub start: usize,
    /// The places of its items' name offsets.
    pub name_words: Vec<usize>,
}

impl Temp {
    /// Where its items start.
    pub fn items(&self, draft: &Draft) -> usize {
        draft.get(self.start + 16) as usize
    }

    /// Ends it at the last byte written; gives its start.
    pub fn end(self, draft: &mut Draft) -> usize {
        draft.end_exactly(self.start);
        draft.templates.push(self.start as u32);
        self.start
    }
}

/// The most bytes that one TEMP takes.
pub fn longest(draft: &Draft) -> usize {
    HEADER + 4 * draft.longest_body() + draft.most(ITEMS) * ITEM + NAMES * names::LONGEST
}

/// A TEMP with some items or none; gives its start.
pub fn template(draft: &mut Draft, rng: &mut Rng) -> usize {
    let count = rng.between(0, draft.most(ITEMS));
    any(draft, rng, count).end(draft)
}

/// A TEMP with so many items.
pub fn any(draft: &mut Draft, rng: &mut Rng, count: usize) -> Temp {
    if count == 0 {
        bare(draft, rng)
    } else if draft.odd && rng.chance(50) {
        loose(draft, rng, count)
    } else {
        tidy(draft, rng, count)
    }
}

/// No items. Where they would start is the TEMP's end, or anywhere in an odd one.
fn bare(draft: &mut Draft, rng: &mut Rng) -> Temp {
    let temp = head(draft, rng, 0);
    draft.set(temp.start + 12, 0);
    filler(draft, rng);
    let end = draft.bytes.len();
    let offset = match rng.below(4) {
        0 => end,
        1 if draft.odd => rng.between(temp.start, temp.start + HEADER),
        2 if draft.odd => rng.between(temp.start + HEADER, end),
        _ => 0,
    };
    draft.set(temp.start + 16, offset as u32);
    temp
}

/// BinXML, then the items, then the names.
pub fn tidy(draft: &mut Draft, rng: &mut Rng, count: usize) -> Temp {
    let mut temp = head(draft, rng, count);
    filler(draft, rng);
    let start = draft.bytes.len();
    draft.random(rng, ITEM * count);
    put_items(draft, &mut temp, start, count);
    let mut names = Vec::new();
    for _ in 0..rng.between(0, count.min(NAMES)) {
        if rng.chance(20) {
            filler(draft, rng);
        }
        names.push(names::write(draft, rng));
    }
    refer(draft, rng, &temp, &names);
    if rng.chance(20) {
        filler(draft, rng);
    }
    temp
}

/// Items and names anywhere in the TEMP, over its header and over one another.
fn loose(draft: &mut Draft, rng: &mut Rng, count: usize) -> Temp {
    let mut temp = head(draft, rng, count);
    let mut names = Vec::new();
    for _ in 0..rng.between(1, NAMES - 1) {
        filler(draft, rng);
        names.push(names::write(draft, rng));
    }
    filler(draft, rng);
    if rng.chance(30) {
        draft.random(rng, ITEM * count);
    }

    // Bytes that must stay: the words that steer the reading of the TEMP, and its names.
    let mut kept = vec![temp.start..temp.start + 20];
    kept.extend(names.iter().map(|&name| {
        let name = name as usize;
        name..name + draft.get(name) as usize
    }));
    let start = place_for_items(draft, rng, &temp, count, &kept).unwrap_or_else(|| {
        let end = draft.bytes.len();
        draft.random(rng, ITEM * count);
        end
    });
    put_items(draft, &mut temp, start, count);
    kept.extend(temp.name_words.iter().map(|&word| word..word + 4));

    // Some more names: over the event type, over an item, anywhere; and one that is the name count.
    for _ in 0..rng.below(3) {
        let item = start + ITEM * rng.below(count);
        let any = rng.between(temp.start, draft.bytes.len() - 8);
        let at = rng.pick(&[temp.start + 20, item, any]);
        if free(&kept, &(at..at + 8)) {
            // No unit, one or two, and each may be zero.
            let units = [rng.pick(&[0, 0x41, 0x42]), rng.pick(&[0, 0x41, 0x42])];
            draft.set(at, rng.pick(&[4, 6, 8]));
            draft.set(at + 4, units[0] + 65_536 * units[1]);
            names.push(at as u32);
            kept.push(at..at + 8);
        }
    }
    if rng.chance(10) {
        draft.set(temp.start + 12, 4);
        names.push(temp.start as u32 + 12);
    }
    refer(draft, rng, &temp, &names);
    temp
}

/// A TEMP's header, with no place for the items so far.
fn head(draft: &mut Draft, rng: &mut Rng, count: usize) -> Temp {
    let start = draft.open(b"TEMP");
    draft.steer(count as u32);
    draft.steer(if rng.chance(60) {
        count as u32
    } else {
        rng.word()
    });
    draft.steer(0);
    draft.word(rng.word());
    draft.random(rng, 16);
    Temp {
        start,
        name_words: Vec::new(),
    }
}

fn filler(draft: &mut Draft, rng: &mut Rng) {
    let length = draft.body(rng);
    draft.random(rng, length);
}

/// Has so many items start at a place that is written already.
fn put_items(draft: &mut Draft, temp: &mut Temp, start: usize, count: usize) {
    draft.set(temp.start + 16, start as u32);
    let words = (0..count).map(|i| start + ITEM * i + NAME);
    temp.name_words = words.collect();
    draft.steering.extend(&temp.name_words);
}

/// A place in the TEMP where so many items fit, and their names' offsets fall on nothing that must
/// stay.
fn place_for_items(
    draft: &Draft,
    rng: &mut Rng,
    temp: &Temp,
    count: usize,
    kept: &[Range<usize>],
) -> Option<usize> {
    let last = draft.bytes.len().checked_sub(ITEM * count)?;
    // In the header, just at the end, or anywhere.
    let tries = [
        temp.start + rng.below(HEADER),
        last,
        rng.between(temp.start, last.max(temp.start)),
        rng.between(temp.start, last.max(temp.start)),
    ];
    let mut fitting = tries.into_iter().filter(|&start| {
        let words = (0..count).map(|i| start + ITEM * i + NAME);
        (temp.start..=last).contains(&start)
            && words
                .map(|word| word..word + 4)
                .all(|word| free(kept, &word))
    });
    fitting.next()
}

fn free(kept: &[Range<usize>], range: &Range<usize>) -> bool {
    let apart = |other: &Range<usize>| range.end <= other.start || other.end <= range.start;
    kept.iter().all(apart)
}

/// Gives each item one of the names, or none.
fn refer(draft: &mut Draft, rng: &mut Rng, temp: &Temp, names: &[u32]) {
    for &word in &temp.name_words {
        let name = if names.is_empty() || rng.chance(20) {
            0
        } else {
            rng.pick(names)
        };
        draft.set(word, name);
    }
}
