//! MAPS and the maps in it.

use crate::draft::Draft;
use crate::names;
use crate::rng::Rng;

/// The most entries that a VMAP gets.
const ENTRIES: usize = 5;

/// The most bytes that one map takes.
pub fn longest(draft: &Draft) -> usize {
    16 + 8 * ENTRIES + draft.longest_body()
}

pub fn write(draft: &mut Draft, rng: &mut Rng, count: usize) -> usize {
    let start = head(draft, rng, count);
    if count == 0 {
        draft.end(rng, start);
    } else if rng.chance(20) {
        loose(draft, rng, start, count);
    } else {
        tight(draft, rng, start, count);
    }
    start
}

/// The header and the offsets of all maps but the first, 0 so far.
pub fn head(draft: &mut Draft, rng: &mut Rng, count: usize) -> usize {
    let start = draft.open(b"MAPS");
    draft.steer(count as u32);
    draft.word(rng.word());
    for _ in 1..count {
        draft.steer(0);
    }
    start
}

/// The place of the offset of a map other than the first, number 0.
pub fn offset_word(start: usize, map: usize) -> usize {
    start + 16 + 4 * (map - 1)
}

/// The first map follows the offsets; the others lie behind it in any order, or
/// are maps of earlier tables, or lie behind the region.
fn tight(draft: &mut Draft, rng: &mut Rng, start: usize, count: usize) {
    any_map(draft, rng);
    let mut others: Vec<usize> = (1..count).collect();
    rng.shuffle(&mut others);
    let behind = if rng.chance(20) { others.pop() } else { None };
    for map in others {
        let at = if !draft.maps.is_empty() && rng.chance(20) {
            rng.pick(&draft.maps)
        } else {
            any_map(draft, rng)
        };
        draft.set(offset_word(start, map), at);
    }
    draft.end(rng, start);
    if let Some(map) = behind {
        let at = plain_map(draft, rng);
        draft.set(offset_word(start, map), at);
    }
}

/// A MAPS with one map, a VMAP with so many entries.
pub fn one_of_many(draft: &mut Draft, rng: &mut Rng, entries: usize) -> usize {
    let start = head(draft, rng, 1);
    let map = draft.open(b"VMAP");
    let name = draft.bytes.len();
    draft.word(0);
    names::refer(draft, rng, name);
    draft.steer(entries as u32);
    draft.random(rng, 8 * entries);
    draft.end_exactly(map);
    draft.end(rng, start);
    start
}

/// No map is a VMAP, so the region may end anywhere: within the offsets, before
/// a map, within its signature or behind it.
fn loose(draft: &mut Draft, rng: &mut Rng, start: usize, count: usize) {
    plain_map(draft, rng);
    for map in 1..count {
        let at = if rng.chance(30) {
            anywhere(draft, rng)
        } else {
            plain_map(draft, rng)
        };
        draft.set(offset_word(start, map), at);
    }
    let size = rng.between(16, draft.bytes.len() - start);
    draft.set(start + 4, size as u32);
}

fn any_map(draft: &mut Draft, rng: &mut Rng) -> u32 {
    if rng.chance(60) {
        let at = value_map(draft, rng);
        draft.maps.push(at);
        at
    } else {
        plain_map(draft, rng)
    }
}

pub fn value_map(draft: &mut Draft, rng: &mut Rng) -> u32 {
    let start = draft.open(b"VMAP");
    let name = draft.bytes.len();
    draft.word(0);
    names::refer(draft, rng, name);
    let entries = rng.below(ENTRIES + 1);
    draft.steer(entries as u32);
    for _ in 0..2 * entries {
        draft.word(rng.word());
    }
    if rng.chance(40) {
        let body = draft.body(rng);
        draft.random(rng, body);
    }
    draft.end_exactly(start);
    start as u32
}

/// A BMAP or another map that isn't read further.
fn plain_map(draft: &mut Draft, rng: &mut Rng) -> u32 {
    let at = draft.here();
    let signature = rng.pick(&[
        b"BMAP", b"BMAP", b"BMAP", b"vmap", b"VMAQ", b"MAPS", &[0; 4],
    ]);
    draft.put(signature);
    at
}

/// A place before the draft's end where four bytes stand that aren't `VMAP`.
fn anywhere(draft: &Draft, rng: &mut Rng) -> u32 {
    let at = rng.below(draft.bytes.len() - 3);
    if &draft.bytes[at..at + 4] == b"VMAP" {
        0
    } else {
        at as u32
    }
}
