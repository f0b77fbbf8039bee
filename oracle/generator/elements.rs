//! The elements of a provider, MAPS and what is in a TTBL excepted. Each function writes one at the
//! draft's end and gives the place where it starts.

use crate::draft::Draft;
use crate::items;
use crate::maps;
use crate::names;
use crate::rng::Rng;

/// A kind whose records are plain words, one of them a name's offset.
#[derive(Clone, Copy)]
pub struct Layout {
    pub signature: &'static [u8; 4],
    /// The bytes of a record.
    pub record: usize,
    /// The place of the name's offset in it.
    name: usize,
}

const fn layout(signature: &'static [u8; 4], record: usize, name: usize) -> Layout {
    Layout {
        signature,
        record,
        name,
    }
}

pub const LAYOUTS: [Layout; 5] = [
    layout(b"CHAN", 16, 4),
    layout(b"KEYW", 16, 12),
    layout(b"LEVL", 12, 8),
    layout(b"OPCO", 12, 8),
    layout(b"TASK", 28, 24),
];

/// How many sorts of element there are: the eight kinds and the unknown ones.
pub const SORTS: usize = 9;

/// Which of them is the TTBL.
pub const TEMPLATES: usize = 6;

const KNOWN: [&[u8; 4]; 8] = [
    b"CHAN", b"EVNT", b"KEYW", b"LEVL", b"MAPS", b"OPCO", b"TASK", b"TTBL",
];

/// An element of a sort, counted from 0.
pub fn write(draft: &mut Draft, rng: &mut Rng, sort: usize) -> usize {
    match sort {
        5 => {
            let count = draft.count(rng, 48);
            events(draft, rng, count)
        }
        TEMPLATES => {
            let count = draft.count(rng, items::longest(draft));
            templates(draft, rng, count)
        }
        7 => {
            let count = draft.count(rng, 20 + maps::longest(draft));
            maps::write(draft, rng, count)
        }
        8 => unknown(draft, rng),
        _ => {
            let layout = LAYOUTS[sort];
            let count = draft.count(rng, layout.record);
            definitions(draft, rng, layout, count)
        }
    }
}

pub fn definitions(draft: &mut Draft, rng: &mut Rng, layout: Layout, count: usize) -> usize {
    let start = draft.open(layout.signature);
    draft.steer(count as u32);
    for _ in 0..count {
        let record = draft.bytes.len();
        for _ in 0..layout.record / 4 {
            draft.word(rng.word());
        }
        names::refer(draft, rng, record + layout.name);
    }
    draft.end(rng, start);
    start
}

pub fn events(draft: &mut Draft, rng: &mut Rng, count: usize) -> usize {
    let start = draft.open(b"EVNT");
    draft.steer(count as u32);
    draft.word(rng.word());
    for i in 0..count {
        let record = draft.bytes.len();
        for _ in 0..12 {
            draft.word(rng.word());
        }
        if i > 0 && rng.chance(30) {
            // The same key as the record before: its first 16 bytes.
            draft.bytes.copy_within(record - 48..record - 32, record);
        }
        draft.template_words.push(record + 20);
        draft.steering.push(record + 20);
    }
    draft.end(rng, start);
    start
}

pub fn templates(draft: &mut Draft, rng: &mut Rng, count: usize) -> usize {
    let start = draft.open(b"TTBL");
    draft.steer(count as u32);
    for _ in 0..count {
        items::template(draft, rng);
    }
    draft.end(rng, start);
    start
}

pub fn unknown(draft: &mut Draft, rng: &mut Rng) -> usize {
    let start = draft.open(&unknown_signature(rng));
    match rng.below(4) {
        0 => draft.set(start + 4, rng.below(9) as u32),
        1 => draft.reach_end(start),
        _ => {
            let body = draft.body(rng);
            draft.random(rng, body);
            draft.end_exactly(start);
        }
    }
    start
}

/// A signature of no kind; some are near to one, or name other structures.
pub fn unknown_signature(rng: &mut Rng) -> [u8; 4] {
    if rng.chance(50) {
        return *rng.pick(&[b"CRIM", b"WEVT", b"TEMP", b"VMAP", &[0; 4], &[255; 4]]);
    }
    // No two kinds are one bit apart, so this is none of them.
    let mut signature = *rng.pick(&KNOWN);
    signature[rng.below(4)] ^= 1 << rng.below(8);
    signature
}
