//! Whole blobs that are accepted.

use crate::draft::Draft;
use crate::elements;
use crate::names;
use crate::rng::Rng;

/// A draft with at least so many providers, and descriptors in each of those.
pub fn draft(rng: &mut Rng, least: usize) -> Draft {
    let scale = if rng.chance(2) { 150 } else { 3 };
    let mut draft = Draft::new(scale);
    draft.odd = rng.chance(40);
    let count = rng.pick(&[0, 1, 1, 1, 1, 1, 2, 2, 2, 3, 4]).max(least);
    head(&mut draft, rng, count);
    for _ in 0..rng.below(3) {
        names::write(&mut draft, rng);
    }
    let mut wevts = Vec::new();
    for i in 0..count {
        let wevt = if i > 0 && rng.chance(15) {
            rng.pick(&wevts)
        } else {
            provider(&mut draft, rng, least)
        };
        wevts.push(wevt);
        let word = draft.providers[i];
        draft.set(word, wevt);
        if i > 0 && rng.chance(20) {
            // The GUID of the provider before.
            draft.bytes.copy_within(word - 36..word - 20, word - 16);
        }
    }
    if !draft.name_words.is_empty() && rng.chance(40) {
        // A name that ends where the blob ends.
        let name = names::write(&mut draft, rng);
        let word = rng.pick(&draft.name_words);
        draft.set(word, name);
    }
    draft
}

/// The CRIM header and the provider descriptors, whose offsets are 0 so far.
pub fn head(draft: &mut Draft, rng: &mut Rng, providers: usize) {
    draft.open(b"CRIM");
    draft.word(rng.word());
    draft.steer(providers as u32);
    for _ in 0..providers {
        draft.random(rng, 16);
        let word = draft.steer(0);
        draft.providers.push(word);
    }
}

/// A WEVT and its elements, one before the other; gives the WEVT's offset.
fn provider(draft: &mut Draft, rng: &mut Rng, least: usize) -> u32 {
    let templates_before = draft.templates.len();
    let events_before = draft.template_words.len();

    let sorts = sorts(rng, least);
    let unknown2 = rng.pick(&[0, 0, 0, 1, 2, 5]);
    let wevt_first = rng.chance(50);
    let mut wevt = 0;
    if wevt_first {
        wevt = write_wevt(draft, rng, sorts.len(), unknown2);
    }
    let mut offsets: Vec<u32> = sorts.iter().map(|&s| element(draft, rng, s)).collect();
    rng.shuffle(&mut offsets);
    if !wevt_first {
        wevt = write_wevt(draft, rng, sorts.len(), unknown2);
    }
    for (i, offset) in offsets.into_iter().enumerate() {
        draft.set(wevt as usize + 20 + 8 * i, offset);
    }

    for i in events_before..draft.template_words.len() {
        let own = &draft.templates[templates_before..];
        let template = match rng.below(10) {
            0 => 0,
            1 => rng.word(),
            2 if !draft.templates.is_empty() => rng.pick(&draft.templates),
            _ if !own.is_empty() => rng.pick(own),
            _ => continue,
        };
        draft.set(draft.template_words[i], template);
    }
    wevt
}

/// The sorts of a provider's elements: each once, or any, repeats among them.
fn sorts(rng: &mut Rng, least: usize) -> Vec<usize> {
    if rng.chance(8) {
        return (0..elements::SORTS).collect();
    }
    let count = rng.below(6).max(least);
    let mut sorts: Vec<usize> = Vec::new();
    for _ in 0..count {
        let again = sorts.last().copied().filter(|_| rng.chance(15));
        // TTBLs come more often than the others: there is most to get wrong in them.
        let any = match rng.below(elements::SORTS + 2) {
            elements::SORTS.. => elements::TEMPLATES,
            sort => sort,
        };
        sorts.push(again.unwrap_or(any));
    }
    sorts
}

/// A new element, or one that was written before; gives its offset.
fn element(draft: &mut Draft, rng: &mut Rng, sort: usize) -> u32 {
    if !draft.elements.is_empty() && rng.chance(10) {
        return rng.pick(&draft.elements);
    }
    if rng.chance(40) {
        names::write(draft, rng);
    }
    if rng.chance(20) {
        let padding = rng.between(1, 3);
        draft.random(rng, padding);
    }
    let at = elements::write(draft, rng, sort) as u32;
    draft.elements.push(at);
    at
}

/// A WEVT whose descriptors' offsets are 0 so far.
pub fn write_wevt(draft: &mut Draft, rng: &mut Rng, descriptors: usize, unknown2: usize) -> u32 {
    let at = draft.here();
    draft.put(b"WEVT");
    draft.word(rng.word());
    draft.word(rng.word());
    draft.steer(descriptors as u32);
    draft.steer(unknown2 as u32);
    for _ in 0..descriptors {
        let word = draft.steer(0);
        draft.descriptors.push(word);
        draft.word(rng.word());
    }
    for _ in 0..unknown2 {
        draft.word(rng.word());
    }
    at
}
