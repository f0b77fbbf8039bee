//! Names: a size that counts itself, then 16-bit units.

use crate::draft::Draft;
use crate::rng::Rng;

/// The most bytes that a good name takes, one within it included.
pub const LONGEST: usize = 72;

/// Writes a good name and gives its offset.
pub fn write(draft: &mut Draft, rng: &mut Rng) -> u32 {
    let mut units = text(rng);
    match rng.below(8) {
        // No zero unit at the end, which an empty name, of size 4, lacks too.
        0 => {}
        1 => units.clear(),
        // What follows the zero unit is not read, neither a lone surrogate nor a second zero unit.
        2 => {
            units.push(0);
            for _ in 0..rng.between(1, 5) {
                units.push(rng.pick(&[0xd800, 0xdc00, 0x41, 0x42, 0]));
            }
        }
        // A second name within the first; its size's upper half ends the first.
        3 => return nested(draft, rng, units),
        _ => units.push(0),
    }
    let at = sized(draft, &units);
    draft.names.push(at);
    at
}

/// Writes a good name of so many units, at times with a zero unit behind them, and gives its offset.
pub fn long(draft: &mut Draft, rng: &mut Rng, units: usize) -> u32 {
    let mut text = Vec::with_capacity(units + 1);
    while text.len() < units {
        if text.len() + 2 <= units && rng.chance(5) {
            text.extend([0xd83d, 0xde00 + rng.below(64) as u16]);
        } else {
            text.push(rng.between(0x20, 0x17f) as u16);
        }
    }
    if rng.chance(70) {
        text.push(0);
    }
    let at = sized(draft, &text);
    draft.names.push(at);
    at
}

/// Writes a name that ends at a length of the draft, and gives its offset. At times its last unit
/// is zero, at times there is a pair last, and at times half of one.
pub fn filling(draft: &mut Draft, rng: &mut Rng, length: usize) -> u32 {
    if !(length - draft.bytes.len()).is_multiple_of(2) {
        draft.bytes.push(0);
    }
    let at = draft.here();
    draft.steer((length - at as usize) as u32);
    draft.bytes.reserve(length - draft.bytes.len());
    while draft.bytes.len() + 8 <= length {
        // Four units, each under 0x8000 and none of them zero.
        let units = rng.any() & 0x7fff_7fff_7fff_7fff | 0x0001_0001_0001_0001;
        draft.put(&units.to_le_bytes());
    }
    while draft.bytes.len() < length {
        draft.put(&[0x41, 0]);
    }
    let last: &[u16] = match rng.below(8) {
        0..=2 => &[],
        3 | 4 => &[0],
        5 => &[0xd83d, 0xde00],
        6 => &[0xd800],
        _ => &[0xdc00],
    };
    for (unit, from_end) in last.iter().rev().zip(1..) {
        let place = length - 2 * from_end;
        draft.bytes[place..place + 2].copy_from_slice(&unit.to_le_bytes());
    }
    at
}

/// Puts a name's offset (absent, or of any name so far) in a word.
pub fn refer(draft: &mut Draft, rng: &mut Rng, place: usize) {
    let name = if draft.names.is_empty() || rng.chance(25) {
        0
    } else {
        rng.pick(&draft.names)
    };
    draft.set(place, name);
    draft.steering.push(place);
    draft.name_words.push(place);
}

/// Makes the word at a place refer to a name that is refused.
pub fn refer_badly(draft: &mut Draft, rng: &mut Rng, place: usize) {
    let name = match rng.below(6) {
        // The offset past the blob.
        0 => draft.here().saturating_add(past(rng)),
        // The size cut short by the blob's end.
        1 => draft.here() - rng.below(4) as u32,
        // A size that doesn't count itself.
        2 => {
            let at = write(draft, rng);
            draft.set(at as usize, rng.below(4) as u32);
            at
        }
        // A size past the blob: the name is the last that was written.
        3 => {
            let units = text(rng);
            let at = sized(draft, &units);
            let size = draft.get(at as usize);
            draft.set(at as usize, size.saturating_add(past(rng)));
            at
        }
        4 => odd(draft, rng),
        _ => lone_surrogate(draft, rng),
    };
    draft.set(place, name);
}

/// By how much something lies past an end: mostly by little.
pub fn past(rng: &mut Rng) -> u32 {
    rng.pick(&[1, 1, 1, 2, 3, 4, 100, 0x7fff_ffff, u32::MAX])
}

/// At most 16 units.
fn text(rng: &mut Rng) -> Vec<u16> {
    let mut units = Vec::new();
    // At times low units alone, which may be read four at a time, and at times a pair behind them.
    if rng.chance(20) {
        for _ in 0..rng.between(4, 14) {
            units.push(rng.between(0x20, 0x7e) as u16);
        }
        if rng.chance(40) {
            units.extend([0xd83d, 0xde00 + rng.below(64) as u16]);
        }
        return units;
    }
    for _ in 0..rng.below(9) {
        match rng.below(6) {
            0 => {
                let (high, low) = (rng.below(0x400), rng.below(0x400));
                units.extend([0xd800 + high as u16, 0xdc00 + low as u16]);
            }
            1 => units.push(rng.pick(&[1, 0x7f, 0x80, 0x7ff, 0x800, 0xd7ff, 0xe000, 0xffff])),
            _ => units.push(rng.between(0x20, 0x7e) as u16),
        }
    }
    units
}

fn sized(draft: &mut Draft, units: &[u16]) -> u32 {
    let at = draft.here();
    draft.steer(4 + 2 * units.len() as u32);
    for unit in units {
        draft.put(&unit.to_le_bytes());
    }
    at
}

fn nested(draft: &mut Draft, rng: &mut Rng, mut outer: Vec<u16>) -> u32 {
    let inner_at = draft.here() + 4 + 2 * outer.len() as u32;
    let inner = text(rng);
    outer.push(4 + 2 * inner.len() as u16);
    outer.push(0);
    outer.extend(inner);
    let at = sized(draft, &outer);
    draft.steering.push(inner_at as usize);
    draft.names.extend([at, inner_at]);
    at
}

/// A name with half a unit at its end.
fn odd(draft: &mut Draft, rng: &mut Rng) -> u32 {
    let mut units = text(rng);
    if rng.chance(50) {
        units.push(0);
    }
    let at = sized(draft, &units);
    draft.bytes.push(rng.byte());
    draft.set(at as usize, 5 + 2 * units.len() as u32);
    at
}

fn lone_surrogate(draft: &mut Draft, rng: &mut Rng) -> u32 {
    let mut units = text(rng);
    match rng.below(4) {
        0 => units.push(0xd800),
        1 => units.extend([0xdbff, 0]),
        2 => units.extend([0xd9ab, 0x41, 0]),
        _ => units.extend([0xdc00, 0x41]),
    }
    sized(draft, &units)
}
