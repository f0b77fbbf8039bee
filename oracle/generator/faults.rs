//! Faults made on purpose: for each pair of code and field past the CRIM header
//! a way to bring it about. A fault is grafted on: it is written at the end of a
//! good draft, and a provider or a descriptor of the draft is turned to it.

use crate::bad_items;
use crate::draft::Draft;
use crate::elements::{self, LAYOUTS, Layout};
use crate::items;
use crate::maps;
use crate::names::{self, past};
use crate::rng::Rng;
use crate::shape::write_wevt;

/// Needs a draft with a provider that has a descriptor.
pub fn graft(draft: &mut Draft, rng: &mut Rng) {
    if rng.chance(20) {
        let word = rng.pick(&draft.providers);
        let at = provider(draft, rng);
        draft.set(word, at);
    } else {
        let word = rng.pick(&draft.descriptors);
        let start = match rng.below(11) {
            0..=3 => {
                let layout = rng.pick(&LAYOUTS);
                definitions(draft, rng, layout)
            }
            4 => table(draft, rng, b"EVNT", 16, 48),
            5 => templates(draft, rng),
            6 | 7 => items(draft, rng),
            8 | 9 => maps(draft, rng),
            _ => unknown(draft, rng),
        };
        draft.set(word, start as u32);
    }
}

/// The offset of a WEVT that is refused before its elements are read.
fn provider(draft: &mut Draft, rng: &mut Rng) -> u32 {
    let at = draft.here();
    match rng.below(7) {
        0 => at.saturating_add(past(rng)),
        1 => {
            cut(draft, rng, b"WEVT", 20);
            at
        }
        2 => {
            write_wevt(draft, rng, 0, 0);
            draft.set(at as usize, rng.word());
            at
        }
        3 => {
            write_wevt(draft, rng, 0, 1);
            draft.set(at as usize + 12, past(rng));
            at
        }
        4 => {
            write_wevt(draft, rng, 0, 1);
            draft.set(at as usize + 16, past(rng).saturating_add(1));
            at
        }
        sort => {
            let good = rng.below(3);
            write_wevt(draft, rng, good + 1, 0);
            for i in 0..good {
                draft.set(at as usize + 20 + 8 * i, at);
            }
            let end = draft.here();
            let element = if sort == 5 {
                end.saturating_add(past(rng))
            } else {
                end - rng.below(4) as u32
            };
            draft.set(at as usize + 20 + 8 * good, element);
            at
        }
    }
}

fn unknown(draft: &mut Draft, rng: &mut Rng) -> usize {
    let signature = elements::unknown_signature(rng);
    if rng.chance(50) {
        return cut(draft, rng, &signature, 8);
    }
    let start = draft.open(&signature);
    oversize(draft, rng, start);
    start
}

fn definitions(draft: &mut Draft, rng: &mut Rng, layout: Layout) -> usize {
    if rng.chance(40) {
        return table(draft, rng, layout.signature, 12, layout.record);
    }
    let count = rng.between(1, 3);
    let start = elements::definitions(draft, rng, layout, count);
    let word = draft.name_words[draft.name_words.len() - rng.between(1, count)];
    names::refer_badly(draft, rng, word);
    start
}

/// A table whose header, size or array is refused.
fn table(
    draft: &mut Draft,
    rng: &mut Rng,
    signature: &[u8; 4],
    header: usize,
    record: usize,
) -> usize {
    let sort = rng.below(5);
    if sort == 0 {
        return cut(draft, rng, signature, header);
    }
    let start = draft.open(signature);
    let count = rng.below(3);
    draft.steer(count as u32);
    draft.random(rng, header - 12 + record * count);
    match sort {
        1 => draft.set(start + 4, rng.between(1, header - 1) as u32),
        2 => oversize(draft, rng, start),
        // The size is 0 or fits what is there; the count is too large for it.
        _ => {
            if sort == 3 {
                draft.end_exactly(start);
            }
            draft.set(start + 8, (count as u32).saturating_add(past(rng)));
        }
    }
    start
}

fn templates(draft: &mut Draft, rng: &mut Rng) -> usize {
    let sort = rng.below(10);
    if sort == 0 {
        return cut(draft, rng, b"TTBL", 12);
    }
    let start = draft.open(b"TTBL");
    let good = rng.below(2);
    draft.steer(good as u32 + 1);
    for _ in 0..good {
        items::template(draft, rng);
    }
    let temp = items::template(draft, rng);
    if rng.chance(70) {
        draft.end_exactly(start);
    }
    match sort {
        1 => draft.set(start + 4, rng.between(1, 11) as u32),
        2 => oversize(draft, rng, start),
        // The region, or the blob if the size is 0, ends within the TEMP's header.
        3 => {
            let kept = temp + rng.below(40);
            if draft.get(start + 4) == 0 {
                draft.bytes.truncate(kept);
            } else {
                draft.set(start + 4, (kept - start) as u32);
            }
        }
        _ => template(draft, rng, temp),
    }
    start
}

/// Spoils the header of the last TEMP.
fn template(draft: &mut Draft, rng: &mut Rng, temp: usize) {
    let end = draft.here();
    match rng.below(6) {
        0 => draft.set(temp, rng.word()),
        1 => draft.set(temp + 4, rng.below(40) as u32),
        2 => oversize(draft, rng, temp),
        3 => {
            draft.set(temp + 8, 0);
            draft.set(temp + 12, rng.word().max(1));
        }
        4 => draft.set(temp + 16, rng.between(1, temp - 1) as u32),
        _ => draft.set(temp + 16, end.saturating_add(past(rng))),
    }
}

/// A TTBL with a TEMP whose items are refused, some before it and some behind it. Whatever is wrong
/// with those, the first fault decides.
fn items(draft: &mut Draft, rng: &mut Rng) -> usize {
    let start = draft.open(b"TTBL");
    let (before, behind) = (rng.below(3), rng.below(3));
    draft.steer((before + 1 + behind) as u32);
    for _ in 0..before {
        items::template(draft, rng);
    }
    bad_items::template(draft, rng);
    for _ in 0..behind {
        let temp = if rng.chance(50) {
            bad_items::template(draft, rng)
        } else {
            items::template(draft, rng)
        };
        if rng.chance(30) {
            template(draft, rng, temp);
        }
    }
    draft.end(rng, start);
    start
}

fn maps(draft: &mut Draft, rng: &mut Rng) -> usize {
    let sort = rng.below(12);
    if sort == 0 {
        return cut(draft, rng, b"MAPS", 16);
    }
    // Two maps; if the fault is in a map, it is in the second.
    let start = maps::head(draft, rng, 2);
    let word = maps::offset_word(start, 1);
    draft.put(b"BMAP");
    let map = maps::value_map(draft, rng) as usize;
    draft.set(word, map as u32);
    draft.end_exactly(start);
    let end = draft.here();
    match sort {
        1 => draft.set(start + 4, rng.between(1, 15) as u32),
        2 => oversize(draft, rng, start),
        3 => {
            let fitting = (draft.bytes.len() - start - 16) / 4 + 1;
            draft.set(start + 8, (fitting as u32).saturating_add(past(rng)));
        }
        4 => draft.set(word, end.saturating_add(past(rng))),
        5 => draft.set(word, end - rng.below(4) as u32),
        6 => {
            draft.set(word, end);
            cut(draft, rng, b"VMAP", 8);
        }
        7 => draft.set(map + 4, rng.below(16) as u32),
        // The region ends within the map or before it.
        8 => {
            let size = rng.between(16, draft.bytes.len() - start - 1);
            draft.set(start + 4, size as u32);
        }
        9 => oversize(draft, rng, map),
        10 => {
            let fitting = (draft.bytes.len() - map - 16) / 8;
            draft.set(map + 12, (fitting as u32).saturating_add(past(rng)));
        }
        _ => names::refer_badly(draft, rng, map + 8),
    }
    start
}

/// A signature and too few bytes of the header behind it, at the blob's end.
fn cut(draft: &mut Draft, rng: &mut Rng, signature: &[u8; 4], header: usize) -> usize {
    let start = draft.bytes.len();
    draft.put(signature);
    let kept = rng.below(header - 4);
    draft.random(rng, kept);
    start
}

/// Gives a structure at the draft's end a size past that end.
fn oversize(draft: &mut Draft, rng: &mut Rng, start: usize) {
    let whole = (draft.bytes.len() - start) as u32;
    draft.set(start + 4, whole.saturating_add(past(rng)));
}
