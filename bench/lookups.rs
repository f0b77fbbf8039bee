//! Lookups by key: in the lists of ordinary readings, and in lists that are hostile.

use std::hint::black_box;
use std::time::Instant;

use ducatfeather::{Capacities, List, needs, raw};
use original::wevt_templates::manifest::{CrimManifest, EventKey};

use crate::measure;
use crate::writer::Writer;

/// The words of a GUID; each provider has it.
const GUID: [u32; 4] = [1, 2, 3, 4];

/// No provider has it.
const UNKNOWN: [u32; 4] = [9; 4];

/// No template stands there.
const NOWHERE: u32 = 1;

/// What a lookup is lent: the words of a reading that had just the room it needed.
struct Lists {
    words: Vec<u32>,
    counts: Capacities,
    guids: Vec<u32>,
}

impl Lists {
    fn read(block: &[u8]) -> Lists {
        let counts = needs(block).expect("a block that is accepted");
        let mut words = vec![0; counts.words().expect("words that can be lent")];
        let mut answer = [0; raw::NUMBERS];
        let code = raw::ducat_read(block, &mut words, counts.in_order(), &mut answer);
        assert_eq!(code, 0, "a block that is accepted");
        Lists {
            words,
            counts,
            guids: vec![0; raw::GUID_WORDS * counts.of(List::Templates) as usize],
        }
    }

    /// How many GUIDs a key gives.
    fn look_up(&mut self, key: &[u32; raw::KEY_WORDS]) -> u64 {
        let mut answer = [0; raw::GUIDS_NUMBERS];
        let code = raw::ducat_templates_for(
            black_box(&self.words),
            self.counts.in_order(),
            self.counts.in_order(),
            black_box(key),
            &mut self.guids,
            &mut answer,
        );
        assert_eq!(code, 0, "lists that fit together");
        black_box(&self.guids);
        answer[4]
    }

    /// The entries of a list.
    fn entries(&mut self, list: List) -> impl Iterator<Item = &mut [u32]> {
        let before = List::all().take_while(|&other| other != list);
        let start = before.map(|other| other.words() * self.counts.of(other) as usize);
        let start: usize = start.sum();
        let all = list.words() * self.counts.of(list) as usize;
        self.words[start..start + all].chunks_exact_mut(list.words())
    }

    /// Gives every EVNT all events, as no reading does; but only the last one has the last event.
    fn share_events(&mut self) {
        let events = self.counts.of(List::Events);
        let last = self.counts.of(List::Providers) - 1;
        for table in self.entries(List::Tables).filter(|table| table[1] == 2) {
            table[5] = 0;
            table[6] = events - u32::from(table[0] < last);
        }
    }

    /// Makes every table a TTBL of the first provider that has all templates, as no reading does.
    fn share_templates(&mut self) {
        let templates = self.counts.of(List::Templates);
        for table in self.entries(List::Tables) {
            [table[0], table[1], table[5], table[6]] = [0, 8, 0, templates];
        }
        for template in self.entries(List::Templates) {
            template[0] = 0;
        }
    }
}

/// The key of the events of a number, whose provider has a GUID.
fn key(guid: [u32; 4], event: u32) -> [u32; raw::KEY_WORDS] {
    let [a, b, c, d] = guid;
    [a, b, c, d, event, 0, 0, 2, 0, 1, 0, 0x8000]
}

/// Providers of one GUID with so many events and templates each. The keys of a provider's events
/// differ; the last names the last template, the others those before it.
pub fn block(providers: u32, events: u32, templates: u32) -> Vec<u8> {
    let mut w = Writer::new(providers);
    let [evnt, ttbl] = [w.events(events), w.templates(templates, 0)];
    for back in 0..events {
        let template = templates - 1 - back % templates;
        let record = evnt + 16 + 48 * (events - 1 - back);
        w.set(record + 20, ttbl + 12 + 40 * template);
    }
    let wevt = w.wevt(&[evnt, ttbl], 0);
    closed(w, providers, |_| wevt)
}

/// Providers of one GUID with so many events and templates each, all events with one key and with
/// the offset of no template; but the last event of the last provider has one.
fn hostile(providers: u32, events: u32, templates: u32) -> Vec<u8> {
    let mut w = Writer::new(providers);
    let [others, last] = [false, true].map(|found| {
        let elements = hostile_tables(&mut w, events, templates, found);
        w.wevt(&elements, 0)
    });
    closed(w, providers, |provider| {
        if provider + 1 < providers {
            others
        } else {
            last
        }
    })
}

fn hostile_tables(w: &mut Writer, events: u32, templates: u32, found: bool) -> [u32; 2] {
    let [evnt, ttbl] = [w.events(events), w.templates(templates, 0)];
    for event in 0..events {
        let record = evnt + 16 + 48 * event;
        let found = found && event + 1 == events;
        w.set(record, 0);
        w.set(record + 20, if found { ttbl + 12 } else { NOWHERE });
    }
    [evnt, ttbl]
}

/// A provider with so many events and templates, all events with one key: the first has the last
/// template, the next the one before it. The GUIDs differ in the last word alone.
fn given(each: u32) -> Vec<u8> {
    let mut w = Writer::new(1);
    let [evnt, ttbl] = [w.events(each), w.templates(each, 0)];
    for event in 0..each {
        let (record, temp) = (evnt + 16 + 48 * event, ttbl + 12 + 40 * (each - 1 - event));
        w.set(record, 0);
        w.set(record + 20, temp);
        w.set(temp + 24, 1);
        w.set(temp + 36, event);
    }
    let wevt = w.wevt(&[evnt, ttbl], 0);
    closed(w, 1, |_| wevt)
}

/// Providers with one event each, all of which name a template that is not there.
pub fn one_event_each(providers: u32) -> Vec<u8> {
    let mut w = Writer::new(providers);
    let evnt = w.events(1);
    w.set(evnt + 16 + 20, NOWHERE);
    let wevt = w.wevt(&[evnt], 0);
    closed(w, providers, |_| wevt)
}

/// Providers of one GUID, the last with an event and its template, the others with neither but with
/// another table.
fn hostile_providers(providers: u32) -> Vec<u8> {
    let mut w = Writer::new(providers);
    let elements = hostile_tables(&mut w, 1, 1, true);
    let levels = w.levels(std::iter::empty());
    let [others, last] = [w.wevt(&[levels], 0), w.wevt(&elements, 0)];
    closed(w, providers, |provider| {
        if provider + 1 < providers {
            others
        } else {
            last
        }
    })
}

/// The whole block, each provider with the GUID and with its WEVT.
fn closed(mut w: Writer, providers: u32, wevt: impl Fn(u32) -> u32) -> Vec<u8> {
    for provider in 0..providers {
        w.set(16 + 20 * provider, GUID[0]);
        w.provider(provider, wevt(provider));
    }
    w.close()
}

/// One lookup, by how many providers have the GUID and how many events and templates there are.
pub fn ordinary() {
    println!(
        "| Providers | Events | Templates | Unknown GUID, ns | No such event, ns | A template, ns | Original's index, ns | Found in it, ns |"
    );
    println!("|--:|--:|--:|--:|--:|--:|--:|--:|");
    for (providers, events, templates) in [
        (1, 10, 10),
        (1, 100, 100),
        (1, 1_000, 1_000),
        (2, 1_000, 1_000),
        (8, 1_000, 1_000),
        (1, 10_000, 10_000),
        (8, 10_000, 10_000),
        (1, 65_536, 40),
        (1, 40, 65_536),
    ] {
        let block = block(providers, events / providers, templates / providers);
        let last = events / providers - 1;
        let [mut unknown, mut none, mut one] = [(); 3].map(|()| Lists::read(&block));
        let asked = [key(UNKNOWN, last), key(GUID, u32::MAX), key(GUID, last)];
        assert_eq!(unknown.look_up(&asked[0]), 0);
        assert_eq!(none.look_up(&asked[1]), 0);
        assert_eq!(one.look_up(&asked[2]), 1);

        let manifest = CrimManifest::parse(&block).expect("a block that is accepted");
        let index = manifest.build_index();
        let guid = manifest.providers[0].guid.to_string();
        let sought = || EventKey {
            provider_guid: black_box(&guid).clone(),
            event_id: last as u16,
            version: 0,
            channel: 0,
            level: 2,
            opcode: 0,
            task: 1,
            keywords: 0x8000 << 32,
        };
        assert_eq!(index.event_to_template_guids[&sought()].len(), 1);
        let times = measure::medians([
            &mut || {
                unknown.look_up(&asked[0]);
            },
            &mut || {
                none.look_up(&asked[1]);
            },
            &mut || {
                one.look_up(&asked[2]);
            },
            &mut || {
                black_box(&manifest.build_index());
            },
            &mut || {
                black_box(index.event_to_template_guids.get(&sought()));
            },
        ]);
        print!("| {providers} | {events} | {templates} |");
        for time in times {
            print!(" {time:.0} |");
        }
        println!();
    }
    println!();
}

/// Lists that make a lookup long.
pub fn hostile_lists() {
    println!("| Hostile lists | Product | Library, ms | ns each |");
    println!("|---|--:|--:|--:|");
    for each in [2048_u32, 16_384] {
        let mut lists = Lists::read(&hostile(1, each, each));
        row("events × templates", &[each, each], GUID, 1, &mut lists);
    }
    for each in [2048_u32, 16_384] {
        let mut lists = Lists::read(&given(each));
        row("GUIDs × templates", &[each, each], GUID, each, &mut lists);
    }
    for providers in [4096_u32, 32_768] {
        let mut lists = Lists::read(&hostile_providers(providers));
        row("providers × tables", &[providers; 2], GUID, 1, &mut lists);
    }
    for providers in [128_u32, 1024] {
        let mut lists = Lists::read(&hostile(providers, 64, 1));
        lists.share_events();
        let factors = [providers, 64 * providers];
        row("providers × events", &factors, GUID, 1, &mut lists);
    }
    for each in [2048_u32, 16_384] {
        let mut lists = Lists::read(&hostile(each / 2, 1, 2));
        lists.share_templates();
        row("TTBLs × templates", &[each, each], UNKNOWN, 0, &mut lists);
    }
    println!();
}

/// The least time of half a second's lookups, or of one that takes longer, of a key of a GUID; so
/// many GUIDs are given.
fn row(name: &str, factors: &[u32], guid: [u32; 4], given: u32, lists: &mut Lists) {
    let key = key(guid, 0);
    let mut least = f64::INFINITY;
    let start = Instant::now();
    while least.is_infinite() || start.elapsed().as_millis() < 500 {
        let began = Instant::now();
        assert_eq!(lists.look_up(&key), u64::from(given));
        least = least.min(began.elapsed().as_nanos() as f64);
    }
    let product: f64 = factors.iter().copied().map(f64::from).product();
    let factors: Vec<String> = factors.iter().map(u32::to_string).collect();
    println!(
        "| {name} | {} | {:.3} | {:.2} |",
        factors.join(" × "),
        least / 1e6,
        least / product
    );
}
