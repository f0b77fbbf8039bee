//! A block while it is written.

#[derive(Default)]
pub struct Writer {
    pub bytes: Vec<u8>,
}

impl Writer {
    /// The CRIM header and so many provider descriptors, whose places `provider` sets.
    pub fn new(providers: u32) -> Writer {
        let mut w = Writer::default();
        w.bytes.extend(b"CRIM");
        w.words(&[0, 0, providers]);
        for number in 0..providers {
            w.words(&[number, 2, 3, 4, 0]);
        }
        w
    }

    /// The place of what is written next.
    pub fn here(&self) -> u32 {
        self.bytes.len() as u32
    }

    pub fn words(&mut self, words: &[u32]) {
        self.bytes
            .extend(words.iter().flat_map(|word| word.to_le_bytes()));
    }

    pub fn set(&mut self, place: u32, word: u32) {
        let place = place as usize;
        self.bytes[place..place + 4].copy_from_slice(&word.to_le_bytes());
    }

    /// A signature and a size that `end` sets; gives their place.
    pub fn open(&mut self, signature: &[u8; 4]) -> u32 {
        let place = self.here();
        self.bytes.extend(signature);
        self.words(&[0]);
        place
    }

    /// Ends a structure at the last byte written.
    pub fn end(&mut self, place: u32) {
        self.set(place + 4, self.here() - place);
    }

    /// Says where a provider's WEVT stands.
    pub fn provider(&mut self, number: u32, wevt: u32) {
        self.set(16 + 20 * number + 16, wevt);
    }

    /// A WEVT; gives its place. Its element descriptors lead to these places.
    pub fn wevt(&mut self, elements: &[u32], unknown2: u32) -> u32 {
        let place = self.open(b"WEVT");
        self.words(&[0, elements.len() as u32, unknown2]);
        for &element in elements {
            self.words(&[element, 0]);
        }
        for word in 0..unknown2 {
            self.words(&[word]);
        }
        self.end(place);
        place
    }

    /// A name of these units and a zero unit; gives its place.
    pub fn name(&mut self, units: impl Iterator<Item = u16>) -> u32 {
        self.name_of(units.chain([0]))
    }

    /// A name of these units alone, which runs out if none of them is zero; gives its place.
    pub fn name_of(&mut self, units: impl Iterator<Item = u16>) -> u32 {
        let place = self.here();
        self.words(&[0]);
        self.bytes.extend(units.flat_map(u16::to_le_bytes));
        self.set(place, self.here() - place);
        place
    }

    pub fn levels(&mut self, names: impl Iterator<Item = u32>) -> u32 {
        let place = self.open(b"LEVL");
        let count = self.here();
        self.words(&[0]);
        for (identifier, name) in (0..).zip(names) {
            self.words(&[identifier, u32::MAX, name]);
            self.set(count, identifier + 1);
        }
        self.end(place);
        place
    }

    pub fn events(&mut self, count: u32) -> u32 {
        let place = self.open(b"EVNT");
        self.words(&[count, 0]);
        for event in 0..count {
            self.words(&[event, 0x0001_0002, 0, 0x8000, event, 0, 0, 0, 0, 0, 0, 0]);
        }
        self.end(place);
        place
    }

    /// Templates with so many bytes of BinXML each.
    pub fn templates(&mut self, count: u32, binxml: usize) -> u32 {
        self.templates_with(count, binxml, |_, _, _| ())
    }

    /// The same, with items: `items` writes them, given the TEMP's place and its number.
    pub fn templates_with(
        &mut self,
        count: u32,
        binxml: usize,
        items: impl Fn(&mut Writer, u32, u32),
    ) -> u32 {
        let place = self.open(b"TTBL");
        self.words(&[count]);
        for template in 0..count {
            let temp = self.open(b"TEMP");
            self.words(&[0, 0, 0, 1, template, 2, 3, 4]);
            self.bytes.resize(self.bytes.len() + binxml, 0x0f);
            items(self, temp, template);
            self.end(temp);
        }
        self.end(place);
        place
    }

    /// Says that the items of the TEMP at a place are written next, so many of them with so many
    /// names.
    pub fn items(&mut self, temp: u32, count: u32, names: u32) {
        for (place, word) in [(8, count), (12, names), (16, self.here())] {
            self.set(temp + place, word);
        }
    }

    /// The items of the TEMP at a place, each with a name: the words of each but for the last,
    /// which is its name's place, and behind all of them the names, of these units alone.
    pub fn named_items<N: Iterator<Item = u16>>(
        &mut self,
        temp: u32,
        items: impl Iterator<Item = ([u32; 4], N)>,
    ) {
        let (items, names): (Vec<[u32; 4]>, Vec<N>) = items.unzip();
        let array = self.here();
        self.items(temp, items.len() as u32, names.len() as u32);
        for item in items {
            self.words(&item);
            self.words(&[0]);
        }
        for (number, name) in (0..).zip(names) {
            let name = self.name_of(name);
            self.set(array + 20 * number + 16, name);
        }
    }

    /// VMAPs with so many entries each, all with one name.
    pub fn maps(&mut self, count: u32, entries: u32, name: u32) -> u32 {
        let place = self.open(b"MAPS");
        self.words(&[count, 0]);
        let offsets = self.here();
        self.bytes
            .resize(self.bytes.len() + 4 * (count as usize - 1), 0);
        for number in 0..count {
            let map = self.open(b"VMAP");
            self.words(&[name, entries]);
            for entry in 0..entries {
                self.words(&[entry, u32::MAX]);
            }
            self.end(map);
            if number > 0 {
                self.set(offsets + 4 * (number - 1), map);
            }
        }
        self.end(place);
        place
    }

    /// The whole block.
    pub fn close(mut self) -> Vec<u8> {
        self.end(0);
        self.bytes
    }
}
