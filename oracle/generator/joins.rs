//! Blobs to join events to templates in: most events have a template, keys and GUIDs come again, or
//! nearly so, and some events name a template that isn't their provider's.

use crate::draft::Draft;
use crate::elements;
use crate::rng::Rng;
use crate::shape::{head, write_wevt};

/// How many events and templates a provider gets.
struct Numbers {
    events: usize,
    templates: usize,
    /// The events behind so many have the key of one before.
    keys: usize,
}

/// A few providers with some events and templates each, most of them with the GUID of one before.
pub fn blob(rng: &mut Rng) -> Vec<u8> {
    let scale = if rng.chance(3) { 40 } else { 4 };
    let mut draft = Draft::new(scale);
    let providers = rng.between(1, 4);
    head(&mut draft, rng, providers);
    let mut elements = Vec::new();
    for i in 0..providers {
        let numbers = Numbers {
            events: rng.between(0, 3 * scale),
            templates: rng.between(0, scale),
            keys: rng.between(1, scale),
        };
        // Some name an element of the provider before too.
        elements.retain(|_| rng.chance(20));
        let wevt;
        (wevt, elements) = provider(&mut draft, rng, &numbers, elements);
        let word = draft.providers[i];
        draft.set(word, wevt);
        if i > 0 {
            let before = rng.pick(&draft.providers[..i]) - 16;
            alike(&mut draft, rng, word - 16, before, 80);
        }
    }
    draft.close();
    draft.bytes
}

/// As many events or templates as a list can have room for, or many of both: of one provider, or
/// divided among up to four of one GUID.
pub fn large(rng: &mut Rng) -> Vec<u8> {
    let mut draft = Draft::new(1);
    let providers = rng.between(1, 4);
    head(&mut draft, rng, providers);
    let (events, templates) = rng.pick(&[(300, 65_536), (300, 65_535), (2000, 2000), (65_536, 40)]);
    for i in 0..providers {
        // The first has what is left over.
        let share = |all| all / providers + if i == 0 { all % providers } else { 0 };
        let numbers = Numbers {
            events: share(events),
            templates: share(templates),
            keys: 16,
        };
        let (wevt, _) = provider(&mut draft, rng, &numbers, Vec::new());
        let word = draft.providers[i];
        draft.set(word, wevt);
        let first = draft.providers[0] - 16;
        draft.bytes.copy_within(first..first + 16, word - 16);
    }
    draft.close();
    draft.bytes
}

/// A WEVT and its elements, with some that were written before; gives its offset and theirs.
fn provider(
    draft: &mut Draft,
    rng: &mut Rng,
    numbers: &Numbers,
    mut offsets: Vec<usize>,
) -> (u32, Vec<usize>) {
    let templates_before = draft.templates.len();
    let events_before = draft.template_words.len();
    for table in tables(rng, numbers) {
        offsets.push(match table {
            Table::Events => elements::events(draft, rng, numbers.events),
            Table::Templates => elements::templates(draft, rng, numbers.templates),
        });
    }
    rng.shuffle(&mut offsets);
    let wevt = write_wevt(draft, rng, offsets.len(), 0);
    for (i, &offset) in offsets.iter().enumerate() {
        draft.set(wevt as usize + 20 + 8 * i, offset as u32);
    }

    for i in templates_before.max(1)..draft.templates.len() {
        let before = rng.pick(&draft.templates[..i]) as usize;
        let template = draft.templates[i] as usize;
        alike(draft, rng, template + 24, before + 24, 50);
    }
    for i in events_before..draft.template_words.len() {
        let word = draft.template_words[i];
        if i - events_before >= numbers.keys {
            let before = events_before + rng.below(numbers.keys);
            let record = draft.template_words[before] - 20;
            draft.bytes.copy_within(record..record + 16, word - 20);
        } else if i > 0 {
            let before = rng.pick(&draft.template_words[..i]);
            alike(draft, rng, word - 20, before - 20, 50);
        }
        let template = template(draft, rng, templates_before);
        draft.set(word, template);
    }
    (wevt, offsets)
}

#[derive(Clone, Copy)]
enum Table {
    Events,
    Templates,
}

/// One of each, in any order. Small ones may be missing, or come twice: the last that is named is
/// kept.
fn tables(rng: &mut Rng, numbers: &Numbers) -> Vec<Table> {
    let mut tables = vec![Table::Events, Table::Templates];
    rng.shuffle(&mut tables);
    if numbers.events + numbers.templates < 1000 {
        match rng.below(10) {
            0 => drop(tables.pop()),
            1 | 2 => tables.push(rng.pick(&tables)),
            _ => {}
        }
    }
    tables
}

/// The 16 bytes of a GUID or a key that came before, some of them with a bit changed; or those at
/// the place stay as they are.
fn alike(draft: &mut Draft, rng: &mut Rng, at: usize, from: usize, percent: usize) {
    if !rng.chance(percent) {
        return;
    }
    draft.bytes.copy_within(from..from + 16, at);
    if rng.chance(30) {
        draft.bytes[at + rng.below(16)] ^= 1 << rng.below(8);
    }
}

/// A template offset: mostly one of the provider's own templates, from a number on.
fn template(draft: &Draft, rng: &mut Rng, own: usize) -> u32 {
    let all = &draft.templates;
    let own = &all[own..];
    match rng.below(20) {
        0 => 0,
        1 => rng.word(),
        2 | 3 if !all.is_empty() => rng.pick(all),
        4 if !own.is_empty() => rng.pick(own).wrapping_add(rng.pick(&[1, 40, u32::MAX])),
        5 if !own.is_empty() => own[0],
        6 if !own.is_empty() => own[own.len() - 1],
        _ if !own.is_empty() => rng.pick(own),
        _ => rng.word(),
    }
}
