//! Blobs of megabytes: at the longest that is read, a little under it and a little past it.

use crate::damage;
use crate::draft::Draft;
use crate::elements::{self, LAYOUTS};
use crate::items;
use crate::maps;
use crate::names;
use crate::rng::Rng;
use crate::shape::{head, write_wevt};

/// The longest blob that is read.
pub const LONGEST: usize = 16_777_216;

/// The most entries that a list can have room for.
const MOST: usize = 65_536;

/// A large blob: much of one thing, and a name that ends where the blob ends.
pub fn blob(rng: &mut Rng) -> Vec<u8> {
    let mut draft = Draft::new(4);
    draft.odd = rng.chance(30);
    much(&mut draft, rng);
    // Behind it a name has room.
    let least = draft.bytes.len() + 16;
    let length = match rng.below(8) {
        0..=2 => LONGEST,
        3 => LONGEST - rng.between(1, 4),
        4 => LONGEST - rng.below(5000),
        5 => rng.between(least, LONGEST),
        6 => LONGEST + 1,
        _ => LONGEST + rng.between(1, 5000),
    };
    let at = names::filling(&mut draft, rng, length);
    let word = rng.pick(&draft.name_words);
    draft.set(word, at);
    draft.close();
    if rng.chance(30) {
        damage::spoil(&mut draft, rng);
    }
    draft.bytes
}

/// Much of one thing. Some of it is more than any list has room for.
fn much(draft: &mut Draft, rng: &mut Rng) {
    let sort = rng.below(8);
    let providers = match sort {
        0 => rng.pick(&[MOST, MOST + 1, 40_000]),
        3 => 1,
        _ => rng.between(1, 3),
    };
    head(draft, rng, providers);
    // Some names that may be shared, and at least one definition that has one.
    for _ in 0..3 {
        names::write(draft, rng);
    }
    let layout = rng.pick(&LAYOUTS);
    let mut offsets = vec![elements::definitions(draft, rng, layout, 2)];
    match sort {
        0 => {}
        1 => {
            let count = rng.pick(&[MOST, MOST + 1, 300_000]);
            offsets.push(elements::events(draft, rng, count));
        }
        2 => {
            let count = rng.pick(&[MOST, MOST + 1, 30_000]);
            offsets.push(elements::templates(draft, rng, count));
        }
        3 => {
            let count = rng.pick(&[MOST, MOST + 1, 300_000]);
            offsets.push(many_items(draft, rng, count));
        }
        4 => {
            let count = rng.pick(&[1000, 40_000]);
            offsets.push(maps::write(draft, rng, count));
        }
        5 => {
            let count = rng.pick(&[MOST, MOST + 1, 1_000_000]);
            offsets.push(maps::one_of_many(draft, rng, count));
        }
        6 => {
            for _ in 0..rng.pick(&[100, 20_000]) {
                let units = rng.between(100, 200);
                names::long(draft, rng, units);
            }
            for layout in LAYOUTS {
                let count = rng.pick(&[10_000, 15_000]);
                offsets.push(elements::definitions(draft, rng, layout, count));
            }
        }
        _ => {
            for _ in 0..rng.pick(&[MOST, MOST + 1, 20_000]) {
                offsets.push(elements::unknown(draft, rng));
            }
        }
    }
    let unknown2 = rng.pick(&[0, 3, 20_000]);
    let wevt = write_wevt(draft, rng, offsets.len(), unknown2);
    for (i, offset) in offsets.into_iter().enumerate() {
        draft.set(wevt as usize + 20 + 8 * i, offset as u32);
    }
    // The first three share it. Of the others one in twenty has a small one of its own, which those
    // behind it share.
    let mut at = wevt;
    for i in 0..providers {
        if i == 3 || i > 3 && rng.chance(5) {
            at = write_wevt(draft, rng, 0, 1);
        }
        draft.set(draft.providers[i], at);
    }
}

/// A TTBL with so many items in all, in TEMPs with any number of them.
fn many_items(draft: &mut Draft, rng: &mut Rng, items: usize) -> usize {
    let mut counts = Vec::new();
    let mut left = items;
    while left > 0 {
        let count = rng.pick(&[0, 1, 10, 1000, 100_000]).min(left);
        counts.push(count);
        left -= count;
    }
    let start = draft.open(b"TTBL");
    draft.steer(counts.len() as u32);
    for count in counts {
        items::any(draft, rng, count).end(draft);
    }
    draft.end(rng, start);
    start
}
