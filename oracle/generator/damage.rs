//! Damage without aim, or aimed at the words that steer a reading.

use crate::draft::Draft;
use crate::rng::Rng;

/// Damages a closed draft in one way.
pub fn spoil(draft: &mut Draft, rng: &mut Rng) {
    match rng.below(14) {
        0..=2 => change_byte(draft, rng),
        3..=6 => set_word(draft, rng),
        7 | 8 => shift_word(draft, rng),
        9 => cut(draft, rng),
        10 => {
            // Cut, with a size that fits what is left.
            cut(draft, rng);
            if draft.bytes.len() >= 8 {
                draft.end_exactly(0);
            }
        }
        11 => draft.bytes.truncate(rng.below(16)),
        12 => change_size(draft, rng),
        _ => {
            if let Some(byte) = draft.bytes.get_mut(rng.below(4)) {
                *byte ^= 1 << rng.below(8);
            }
        }
    }
}

fn change_byte(draft: &mut Draft, rng: &mut Rng) {
    if !draft.bytes.is_empty() {
        let place = rng.below(draft.bytes.len());
        let any = rng.byte();
        draft.bytes[place] = rng.pick(&[0, 1, 0xff, any]);
    }
}

fn set_word(draft: &mut Draft, rng: &mut Rng) {
    let Some(place) = steering_word(draft, rng) else {
        return;
    };
    let length = draft.here();
    let value = match rng.below(4) {
        0 => rng.pick(&[length - 1, length, length + 1]),
        1 => length.saturating_sub(rng.below(44) as u32),
        // Another word that steers, read as whatever this one points to.
        2 => rng.pick(&draft.steering) as u32,
        _ => rng.pick(&SPECIAL),
    };
    draft.set(place, value);
}

const SPECIAL: [u32; 19] = [
    0,
    1,
    2,
    3,
    4,
    7,
    8,
    11,
    12,
    15,
    16,
    19,
    20,
    39,
    40,
    41,
    0x7fffffff,
    0x80000000,
    u32::MAX,
];

fn shift_word(draft: &mut Draft, rng: &mut Rng) {
    if let Some(place) = steering_word(draft, rng) {
        let by = rng.pick(&[1, u32::MAX]);
        draft.set(place, draft.get(place).wrapping_add(by));
    }
}

/// A place of a steering word that no cut took away.
fn steering_word(draft: &Draft, rng: &mut Rng) -> Option<usize> {
    let place = rng.pick(&draft.steering);
    (place + 4 <= draft.bytes.len()).then_some(place)
}

fn cut(draft: &mut Draft, rng: &mut Rng) {
    let length = draft.bytes.len();
    let kept = if rng.chance(30) {
        length.saturating_sub(rng.between(1, 4))
    } else {
        rng.below(length + 1)
    };
    draft.bytes.truncate(kept);
}

fn change_size(draft: &mut Draft, rng: &mut Rng) {
    if draft.bytes.len() >= 8 {
        let length = draft.bytes.len();
        let size = match rng.below(4) {
            0 => rng.below(21) as u32,
            1 => rng.pick(&[length - 1, length + 1]) as u32,
            2 => rng.below(length) as u32,
            _ => rng.word(),
        };
        draft.set(4, size);
    }
}
