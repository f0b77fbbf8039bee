//! A second reading of the request for an index, from its words alone: what the library answers is
//! held against it. No test uses all of it.
#![allow(dead_code, unused_imports)]

mod found;

pub use found::found;

/// A code, and the place that it is told at.
pub type Fault = (u64, u64);

/// What an index holds: "each provider's unknown2 count", and "per entry provider number, id,
/// version, channel, level, opcode, task, keywords, template offset".
#[derive(Clone, Debug, Default, PartialEq, Eq)]
pub struct Held {
    pub counts: Vec<u32>,
    pub entries: Vec<[u64; 9]>,
}

/// The bits of a count, of an edition, and of the numbers of an entry: "Field widths are those of
/// `EventKey`, else 32 bits".
pub const WORD: u32 = 32;
pub const ENTRY: [u32; 9] = [WORD, 16, 8, 8, 8, 8, 16, 64, WORD];

/// "in seven-bit groups, low group first, high bit set on all but the last byte, shortest form only"
pub fn form(mut number: u64) -> Vec<u8> {
    let mut bytes = Vec::new();
    while number > 0x7f {
        bytes.push(0x80 | number as u8);
        number >>= 7;
    }
    bytes.push(number as u8);
    bytes
}

/// The number at a place, and the place behind it.
pub fn number(bytes: &[u8], at: usize, bits: u32) -> Result<(u64, usize), Fault> {
    let fault = |code| Err((code, at as u64));
    // "at most ten bytes"
    let mut ten = &bytes[at..];
    ten = &ten[..ten.len().min(10)];
    let Some(last) = ten.iter().position(|byte| byte & 0x80 == 0) else {
        // "15 if the bytes run out before a last byte and before ten, 16 for ten without one"
        return fault(if ten.len() < 10 { 15 } else { 16 });
    };
    let groups = ten[..=last].iter().map(|byte| u128::from(byte & 0x7f));
    let value = groups.rev().fold(0, |high, group| high << 7 | group);
    // "longer than shortest or past its width"
    if last > 0 && ten[last] == 0 || value >> bits > 0 {
        return fault(16);
    }
    Ok((value as u64, at + last + 1))
}

/// "edition 1, provider count, each provider's unknown2 count, entry count, then per entry .."
pub fn numbers(held: &Held) -> Vec<u64> {
    let Held { counts, entries } = held;
    let mut numbers = vec![1, counts.len() as u64];
    numbers.extend(counts.iter().map(|&count| u64::from(count)));
    numbers.push(entries.len() as u64);
    numbers.extend(entries.iter().flatten());
    numbers
}

pub fn encode(held: &Held) -> Vec<u8> {
    numbers(held).into_iter().flat_map(form).collect()
}

/// "17 edition not 1, 18 bytes left over, first fault in reading order, placed at its first byte"
pub fn decode(bytes: &[u8]) -> Result<Held, Fault> {
    let mut at = 0;
    let mut next = |bits| {
        let (value, behind) = number(bytes, at, bits)?;
        at = behind;
        Ok::<_, Fault>(value)
    };
    if next(WORD)? != 1 {
        return Err((17, 0));
    }
    let mut held = Held::default();
    for _ in 0..next(WORD)? {
        held.counts.push(next(WORD)? as u32);
    }
    for _ in 0..next(WORD)? {
        let mut entry = [0; 9];
        for (number, bits) in entry.iter_mut().zip(ENTRY) {
            *number = next(bits)?;
        }
        held.entries.push(entry);
    }
    if at < bytes.len() {
        return Err((18, at as u64));
    }
    Ok(held)
}

/// "A read gives every number after the edition, in order, as 32-bit words (keywords low, high)"
pub fn words(held: &Held) -> Vec<u32> {
    let mut words = vec![held.counts.len() as u32];
    words.extend(&held.counts);
    words.push(held.entries.len() as u32);
    for entry in &held.entries {
        for (&number, bits) in entry.iter().zip(ENTRY) {
            words.push(number as u32);
            if bits == 64 {
                words.push((number >> 32) as u32);
            }
        }
    }
    words
}
