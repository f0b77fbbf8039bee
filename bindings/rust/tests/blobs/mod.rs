//! Blocks to read. No test uses all of them.
#![allow(dead_code, unused_imports)]

#[path = "../../../../oracle/generator/small.rs"]
mod small;

use ducatfeather::{Capacities, List};

pub use small::{t, u, with, z};

/// What T needs.
pub fn t_needs() -> Capacities {
    Capacities::each(0)
        .with(List::Providers, 1)
        .with(List::Descriptors, 1)
        .with(List::Tables, 1)
        .with(List::Templates, 1)
}

/// What that one needs.
pub fn u_needs() -> Capacities {
    t_needs().with(List::Items, 1)
}

/// One provider with something in each list; in the order of the file: the name `Größe 𝄞`, a
/// CHAN, an EVNT, a KEYW, a MAPS, a TTBL, and an element `What`.
pub fn rich() -> Vec<u8> {
    let mut b = Block(b"CRIM".to_vec());
    b.words(&[0, 0x0002_0001, 1]);
    b.0.extend(1..=16); // the provider's GUID
    b.words(&[36]);

    // The WEVT, with room for six descriptors, and two unknown2 words behind them.
    let wevt = b.signature(b"WEVT");
    b.words(&[68, u32::MAX, 6, 2]);
    b.words(&[0; 12]);
    b.words(&[700, 701]);
    let mut elements = Vec::new();

    let name = b.name("Größe 𝄞\0");

    elements.push(b.signature(b"CHAN"));
    b.words(&[44, 2]);
    b.words(&[9, name, 5, 1000]);
    b.words(&[10, 0, 6, u32::MAX]);

    elements.push(b.signature(b"EVNT"));
    b.words(&[67, 1, 77]);
    b.words(&[
        0x0302_0001,
        0x0007_0504,
        8,
        9,
        u32::MAX,
        0,
        11,
        0,
        13,
        14,
        15,
        16,
    ]);
    b.0.extend([1, 2, 3]); // trailing

    elements.push(b.signature(b"KEYW"));
    b.words(&[28, 1]);
    b.words(&[1, 2, 3, 0]);

    // Two maps: the first stands behind the one offset, the second where that says.
    elements.push(b.signature(b"MAPS"));
    let maps = b.here();
    b.words(&[0, 2, 0]);
    b.words(&[maps + 12 + 4 + 34]);
    b.signature(b"VMAP");
    b.words(&[34, name, 2, 1, 100, 2, u32::MAX]);
    b.0.extend([8, 9]); // data
    b.signature(b"BMAP");

    elements.push(b.signature(b"TTBL"));
    b.words(&[84, 1]);
    let temp = b.signature(b"TEMP");
    b.words(&[72, 1, 1, temp + 42, 3]);
    b.0.extend(17..=32); // the template's GUID
    b.0.extend([0xf, 0x1]);
    b.words(&[50, 0x0035_3433, 54, 0x0038_0037, temp + 62]);
    b.name("MΣ\0");

    elements.push(b.signature(b"What"));
    b.words(&[9]);
    b.0.push(33);

    let mut bytes = with(&b.0, 4, b.here());
    for (i, &element) in elements.iter().enumerate() {
        let descriptor = wevt as usize + 20 + 8 * i;
        bytes = with(&bytes, descriptor, element);
        bytes = with(&bytes, descriptor + 4, 200 + i as u32);
    }
    bytes
}

/// What that one needs.
pub fn rich_needs() -> Capacities {
    Capacities::each(0)
        .with(List::Providers, 1)
        .with(List::Descriptors, 6)
        .with(List::Unknown2, 2)
        .with(List::Tables, 5)
        .with(List::Definitions, 3)
        .with(List::Events, 1)
        .with(List::Maps, 2)
        .with(List::MapEntries, 2)
        .with(List::Templates, 1)
        .with(List::UnknownElements, 1)
        .with(List::Items, 1)
}

/// So many providers that share one WEVT, as T's, with so many templates.
pub fn shared(providers: u32, templates: u32) -> Vec<u8> {
    let mut b = sharing(providers, templates);
    for _ in 0..templates {
        b.0.extend(&t()[76..]);
    }
    b.set(4, b.here());
    b.0
}

/// The same with one template, which has so many items without names.
pub fn shared_items(providers: u32, items: u32) -> Vec<u8> {
    let mut b = sharing(providers, 1);
    let temp = b.signature(b"TEMP");
    b.words(&[40 + 20 * items, items, 0, temp + 40, 0, 0, 0, 0, 0]);
    b.words(&vec![0; 5 * items as usize]);
    b.set(4, b.here());
    b.0
}

/// The same up to the first TEMP. The TTBL ends where the block does.
fn sharing(providers: u32, templates: u32) -> Block {
    let mut b = Block(b"CRIM".to_vec());
    let wevt = 16 + 20 * providers;
    b.words(&[0, 0, providers]);
    for _ in 0..providers {
        b.words(&[0, 0, 0, 0, wevt]);
    }
    b.signature(b"WEVT");
    b.words(&[0, 0, 1, 0, wevt + 28, 0]);
    b.signature(b"TTBL");
    b.words(&[0, templates]);
    b
}

/// A block while it is written.
pub struct Block(pub Vec<u8>);

impl Block {
    /// The place of what is written next.
    pub fn here(&self) -> u32 {
        self.0.len() as u32
    }

    /// Gives the place where it stands.
    pub fn signature(&mut self, signature: &[u8; 4]) -> u32 {
        let place = self.here();
        self.0.extend(signature);
        place
    }

    pub fn words(&mut self, values: &[u32]) {
        self.0.extend(words(values));
    }

    pub fn set(&mut self, place: u32, value: u32) {
        self.0 = with(&self.0, place as usize, value);
    }

    /// A name of this text, with the zero unit that ends it or without; gives its place.
    pub fn name(&mut self, text: &str) -> u32 {
        let place = self.here();
        let units: Vec<u8> = text.encode_utf16().flat_map(u16::to_le_bytes).collect();
        self.words(&[4 + units.len() as u32]);
        self.0.extend(units);
        place
    }
}

fn words(values: &[u32]) -> impl Iterator<Item = u8> {
    values.iter().flat_map(|value| value.to_le_bytes())
}
