//! TEMPs whose items are refused.

use crate::draft::Draft;
use crate::items::{self, Temp};
use crate::names::{self, past};
use crate::rng::Rng;

/// A TEMP whose items, or their names, are refused; gives its start.
pub fn template(draft: &mut Draft, rng: &mut Rng) -> usize {
    let count = rng.between(1, 3);
    let temp = items::any(draft, rng, count);
    if rng.chance(35) {
        array(draft, rng, &temp, count);
    } else {
        // With several bad names that of the first item decides.
        for _ in 0..rng.pick(&[1, 1, 2, 3]) {
            let word = rng.pick(&temp.name_words);
            name(draft, rng, &temp, word);
        }
    }
    temp.end(draft)
}

/// A name before the TEMP, or one that is refused in the TEMP, which ends at the draft's end.
fn name(draft: &mut Draft, rng: &mut Rng, temp: &Temp, word: usize) {
    if rng.chance(30) {
        let any = rng.between(1, temp.start - 1);
        // At the TEMP itself the size is its signature.
        draft.set(word, rng.pick(&[1, any, temp.start - 1, temp.start]) as u32);
    } else {
        names::refer_badly(draft, rng, word);
    }
}

/// Items that aren't all in the TEMP: too many of them, or from too far behind; or items over the
/// header, whose names can be anything.
fn array(draft: &mut Draft, rng: &mut Rng, temp: &Temp, count: usize) {
    let (start, end) = (temp.items(draft), draft.bytes.len());
    let fitting = ((end - start) / 20) as u32;
    match rng.below(6) {
        0 => draft.set(temp.start + 8, fitting.saturating_add(past(rng))),
        // So many that 20 times the count, or that and the start, is little again in 32 bits.
        1 => {
            let around = (u32::MAX - start as u32) / 20 + 1;
            let count = rng.pick(&[214_748_365, 429_496_730, 858_993_460, around, u32::MAX]);
            draft.set(temp.start + 8, count);
        }
        2 => draft.set(temp.start + 16, 0),
        3 => draft.set(temp.start + 16, end as u32),
        4 => draft.set(temp.start + 16, (temp.start + rng.below(41)) as u32),
        _ => {
            let late = end - rng.between(0, 20 * count - 1);
            draft.set(
                temp.start + 16,
                rng.pick(&[late, end - 20 * count + 1]) as u32,
            );
        }
    }
}
