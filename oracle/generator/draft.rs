//! A blob while it is written, with notes of the places that later steps use.

use crate::rng::Rng;

/// Blobs stay under 64 KiB.
const ROOM: usize = 60_000;

pub struct Draft {
    pub bytes: Vec<u8>,
    /// The most records that a table gets.
    scale: usize,
    /// Whether TEMPs may have what the original refuses.
    pub odd: bool,
    /// Places of the words that steer a reading: sizes, counts and offsets.
    pub steering: Vec<usize>,
    /// Places of the words that hold a WEVT's offset.
    pub providers: Vec<usize>,
    /// Places of the words that hold an element's offset.
    pub descriptors: Vec<usize>,
    /// Places of the words that hold a name's offset.
    pub name_words: Vec<usize>,
    /// Places of the words that hold an event's template offset.
    pub template_words: Vec<usize>,
    /// Offsets of what was written: names, elements, maps, templates.
    pub names: Vec<u32>,
    pub elements: Vec<u32>,
    pub maps: Vec<u32>,
    pub templates: Vec<u32>,
    /// Structures whose size is to reach exactly to the blob's end.
    to_end: Vec<usize>,
}

impl Draft {
    pub fn new(scale: usize) -> Draft {
        Draft {
            bytes: Vec::new(),
            scale,
            odd: false,
            steering: Vec::new(),
            providers: Vec::new(),
            descriptors: Vec::new(),
            name_words: Vec::new(),
            template_words: Vec::new(),
            names: Vec::new(),
            elements: Vec::new(),
            maps: Vec::new(),
            templates: Vec::new(),
            to_end: Vec::new(),
        }
    }

    /// The offset of what is written next: the draft's length.
    pub fn here(&self) -> u32 {
        self.bytes.len() as u32
    }

    /// A count of records of a length, small enough for the blob's limit.
    pub fn count(&self, rng: &mut Rng, record: usize) -> usize {
        let room = ROOM.saturating_sub(self.bytes.len()) / record;
        rng.between(0, self.scale.min(room))
    }

    /// The most of something of which there are few.
    pub fn most(&self, few: usize) -> usize {
        self.scale.min(few)
    }

    /// A length for bytes that nothing reads.
    pub fn body(&self, rng: &mut Rng) -> usize {
        rng.below(8 * self.scale)
    }

    /// The most bytes that `body` gives.
    pub fn longest_body(&self) -> usize {
        8 * self.scale
    }

    pub fn put(&mut self, bytes: &[u8]) {
        self.bytes.extend_from_slice(bytes);
    }

    pub fn word(&mut self, value: u32) {
        self.put(&value.to_le_bytes());
    }

    pub fn random(&mut self, rng: &mut Rng, length: usize) {
        self.bytes.extend((0..length).map(|_| rng.byte()));
    }

    /// A word that steers a reading; gives its place.
    pub fn steer(&mut self, value: u32) -> usize {
        let place = self.bytes.len();
        self.steering.push(place);
        self.word(value);
        place
    }

    /// Changes a word that was written before.
    pub fn set(&mut self, place: usize, value: u32) {
        self.bytes[place..place + 4].copy_from_slice(&value.to_le_bytes());
    }

    pub fn get(&self, place: usize) -> u32 {
        u32::from_le_bytes(self.bytes[place..place + 4].try_into().expect("four bytes"))
    }

    /// A signature and a size of 0, which `end` sets; gives the signature's place.
    pub fn open(&mut self, signature: &[u8; 4]) -> usize {
        let start = self.bytes.len();
        self.put(signature);
        self.steer(0);
        start
    }

    /// Ends a table: a size of 0, to the blob's end, with some bytes more, or exact.
    pub fn end(&mut self, rng: &mut Rng, start: usize) {
        match rng.below(10) {
            0 => return,
            1 => return self.reach_end(start),
            2 | 3 => {
                let more = rng.between(1, 9);
                self.random(rng, more);
            }
            _ => {}
        }
        self.end_exactly(start);
    }

    /// Ends a structure at the last byte written.
    pub fn end_exactly(&mut self, start: usize) {
        self.set(start + 4, (self.bytes.len() - start) as u32);
    }

    /// Ends a structure at the blob's end, wherever that will be.
    pub fn reach_end(&mut self, start: usize) {
        self.to_end.push(start);
    }

    /// Settles the sizes that depend on the blob's length.
    pub fn close(&mut self) {
        for start in std::mem::take(&mut self.to_end) {
            self.end_exactly(start);
        }
        self.end_exactly(0);
    }
}
