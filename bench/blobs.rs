//! Ordinary blocks: what is in manifests, more and more of it, and each part of them alone.

use generator::known;

use crate::writer::Writer;

type Named = (&'static str, Vec<u8>);

/// Blocks as they are, small and large.
pub fn whole() -> Vec<Named> {
    vec![
        ("Z", known::z()),
        ("T", known::t()),
        ("mixed, 100 KiB", mixed(2, 260)),
        ("mixed, 1 MiB", mixed(8, 650)),
        ("mixed, 12 MiB", mixed(45, 1400)),
        ("items, 100 KiB", with_items(2, 40)),
        ("items, 1 MiB", with_items(8, 100)),
        ("items, 8 MiB", with_items(40, 160)),
        ("names of a kilobyte", long_names(4000, 'n' as u16)),
        ("names of a kilobyte, Greek", long_names(4000, 0x3bd)),
        ("small providers", small_providers(30_000)),
    ]
}

/// One sort of thing and nothing else, to see what each costs.
pub fn parts() -> Vec<Named> {
    let nameless = || std::iter::repeat_n(0, 65_536);
    vec![
        ("events", one(|w| w.events(65_536))),
        ("templates", one(|w| w.templates(65_536, 100))),
        ("items", one(|w| w.templates_with(6_500, 0, ten_items))),
        (
            "items without names",
            one(|w| w.templates_with(6_500, 0, ten_nameless)),
        ),
        ("maps", one(|w| w.maps(8_000, 8, 0))),
        ("names of 16 units", short_names(60_000)),
        ("definitions without names", one(|w| w.levels(nameless()))),
        ("unknown elements", unknown_elements(60_000)),
    ]
}

/// Text as it is in names: letters, some of them not ASCII.
fn text(number: u32, units: u32) -> impl Iterator<Item = u16> {
    (0..units).map(move |i| match (number + i) % 16 {
        0 => 0xe9,
        letter => 'a' as u16 + letter as u16,
    })
}

/// Providers with all kinds of tables; so many events and templates each.
fn mixed(providers: u32, events: u32) -> Vec<u8> {
    let mut w = Writer::new(providers);
    for provider in 0..providers {
        let names: Vec<u32> = (0..events / 2)
            .map(|n| w.name(text(n, 12 + n % 24)))
            .collect();
        let mut some = names.iter().copied().cycle();
        let mut elements = Vec::new();

        let table = w.open(b"CHAN");
        w.words(&[4]);
        for channel in 0..4 {
            w.words(&[channel, some.next().unwrap_or(0), 0, u32::MAX]);
        }
        w.end(table);
        elements.push(table);

        elements.push(w.events(events));

        let table = w.open(b"KEYW");
        w.words(&[events / 8]);
        for keyword in 0..events / 8 {
            w.words(&[0, keyword, 1000 + keyword, some.next().unwrap_or(0)]);
        }
        w.end(table);
        elements.push(table);

        let names = (0..5).filter_map(|_| some.next()).collect::<Vec<u32>>();
        elements.push(w.levels(names.into_iter()));

        let name = some.next().unwrap_or(0);
        elements.push(w.maps(events / 16 + 1, 8, name));

        for (signature, gap) in [(b"OPCO", 0), (b"TASK", 4)] {
            let table = w.open(signature);
            w.words(&[events / 6]);
            for identifier in 0..events / 6 {
                w.words(&[identifier, u32::MAX]);
                w.words(&[0; 4][..gap]);
                w.words(&[some.next().unwrap_or(0)]);
            }
            w.end(table);
            elements.push(table);
        }

        elements.push(w.templates(events, 76));
        let wevt = w.wevt(&elements, 2);
        w.provider(provider, wevt);
    }
    w.close()
}

/// Providers with so many events and templates each, as they are where events carry much: ten items
/// a template, and as much BinXML as it takes to name ten values.
fn with_items(providers: u32, templates: u32) -> Vec<u8> {
    let mut w = Writer::new(providers);
    for provider in 0..providers {
        let elements = [
            w.events(templates),
            w.templates_with(templates, 720, ten_items),
        ];
        let wevt = w.wevt(&elements, 0);
        w.provider(provider, wevt);
    }
    w.close()
}

/// Ten items with names of 5 to 20 letters, no two templates' alike.
fn ten_items(w: &mut Writer, temp: u32, template: u32) {
    let items = (0..10).map(|item| {
        let number = 10 * template + item;
        let letter = move |i| 'a' as u16 + ((number + i) % 26) as u16;
        let units = 5 + number.wrapping_mul(0x9e37_79b9) % 16;
        let name = (0..units).map(letter).chain([0]);
        ([0, 0x0808, 0, 0x0004_0001], name)
    });
    w.named_items(temp, items);
}

fn ten_nameless(w: &mut Writer, temp: u32, _: u32) {
    w.items(temp, 10, 0);
    for _ in 0..10 {
        w.words(&[0, 0x0808, 0, 0x0004_0001, 0]);
    }
}

/// One provider with one element.
fn one(element: impl Fn(&mut Writer) -> u32) -> Vec<u8> {
    let mut w = Writer::new(1);
    let element = element(&mut w);
    let wevt = w.wevt(&[element], 0);
    w.provider(0, wevt);
    w.close()
}

/// Levels with a name of 512 units each, all of them this one.
fn long_names(count: u32, unit: u16) -> Vec<u8> {
    one(|w| {
        let name = || std::iter::repeat_n(unit, 512);
        let names: Vec<u32> = (0..count).map(|_| w.name(name())).collect();
        w.levels(names.into_iter())
    })
}

fn short_names(count: u32) -> Vec<u8> {
    one(|w| {
        let names: Vec<u32> = (0..count).map(|n| w.name(text(n, 8 + n % 16))).collect();
        w.levels(names.into_iter())
    })
}

/// Providers with one event and one level each.
fn small_providers(count: u32) -> Vec<u8> {
    let mut w = Writer::new(count);
    for provider in 0..count {
        let elements = [w.events(1), w.levels(std::iter::once(0))];
        let wevt = w.wevt(&elements, 0);
        w.provider(provider, wevt);
    }
    w.close()
}

fn unknown_elements(count: u32) -> Vec<u8> {
    let mut w = Writer::new(1);
    let mut elements = Vec::new();
    for _ in 0..count {
        let element = w.open(b"What");
        w.end(element);
        elements.push(element);
    }
    let wevt = w.wevt(&elements, 0);
    w.provider(0, wevt);
    w.close()
}
