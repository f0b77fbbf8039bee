//! The event index: read back beside a plain loop over the same bytes, and beside reading the block
//! again; and written.

use std::hint::black_box;
use std::time::Instant;

use ducatfeather::{Capacities, List, needs, raw};
use generator::Rng;

use crate::lookups::{block, one_event_each};
use crate::measure;

/// By how much reading back may be slower than the plain loop.
const BAR: f64 = 1.5;

/// The largest number of each width, and those of an entry's numbers.
const BYTE: u64 = u8::MAX as u64;
const HALF: u64 = u16::MAX as u64;
const WORD: u64 = u32::MAX as u64;
const ENTRY: [u64; 9] = [WORD, HALF, BYTE, BYTE, BYTE, BYTE, HALF, u64::MAX, WORD];

/// What is refused, by its code and place.
#[derive(Debug)]
struct Fault(#[allow(dead_code)] u32, #[allow(dead_code)] usize);

/// Prints the tables. Gives what is slower than the bar allows.
pub fn tables() -> Vec<String> {
    let mut slow = Vec::new();
    println!(
        "| Providers | Events | Templates | Block, bytes | Index, bytes | Index read, ns | Plain loop, ns | Ratio | Block read again, ns | Index written, ns |"
    );
    println!("|--:|--:|--:|--:|--:|--:|--:|--:|--:|--:|");
    for (providers, events, templates) in [
        (1, 100, 100),
        (4, 1_000, 1_000),
        (4, 10_000, 1_000),
        (4, 65_536, 1_000),
        (1, 65_536, 65_536),
    ] {
        let block = block(providers, events / providers, templates / providers);
        let [mut lists, mut again] = [(); 2].map(|()| Lists::read(&block));
        let index = lists.write();
        let [mut back, mut plain] = [(); 2].map(|()| Back::new(&index));
        let [library, plain, again, written] = measure::medians([
            &mut || back.library(&index),
            &mut || plain.plain_loop(&index),
            &mut || again.read_again(&block),
            &mut || {
                black_box(lists.written());
            },
        ]);
        let ratio = library / plain;
        println!(
            "| {providers} | {events} | {templates} | {} | {} | {library:.0} | {plain:.0} | {ratio:.2} | {again:.0} | {written:.0} |",
            block.len(),
            index.len(),
        );
        note(&mut slow, events, ratio);
    }
    println!();
    println!("| 65,536 entries with | Index, bytes | Index read, ns | Plain loop, ns | Ratio |");
    println!("|---|--:|--:|--:|--:|");
    for (what, index) in made() {
        let [mut back, mut plain] = [(); 2].map(|()| Back::new(&index));
        let [library, plain] = measure::medians([&mut || back.library(&index), &mut || {
            plain.plain_loop(&index)
        }]);
        let ratio = library / plain;
        println!(
            "| {what} | {} | {library:.0} | {plain:.0} | {ratio:.2} |",
            index.len(),
        );
        note(&mut slow, 65_536, ratio);
    }
    println!();
    hostile();
    slow
}

/// Blocks as any whose events' templates take longest to be looked for.
fn hostile() {
    println!("| Index written of | Product | Library, ms | ns each |");
    println!("|---|--:|--:|--:|");
    let lists: [(&str, fn(u32) -> Vec<u8>); 2] = [
        ("providers × tables", |each| one_event_each(each)),
        ("events × templates", |each| block(1, each, each)),
    ];
    for (what, made) in lists {
        for each in [4_096, 65_536] {
            let mut lists = Lists::read(&made(each));
            let start = Instant::now();
            black_box(lists.written());
            let time = start.elapsed().as_nanos() as f64;
            println!(
                "| {what} | {each} × {each} | {:.3} | {:.2} |",
                time / 1e6,
                time / f64::from(each) / f64::from(each),
            );
        }
    }
    println!();
}

fn note(slow: &mut Vec<String>, entries: u32, ratio: f64) {
    if entries >= 65_536 && ratio > BAR {
        slow.push(format!("an index that takes {ratio:.2} times as long"));
    }
}

/// The lists of a reading that had just the room it needed, and bytes for their index.
struct Lists {
    words: Vec<u32>,
    counts: Capacities,
    bytes: Vec<u8>,
}

impl Lists {
    fn read(block: &[u8]) -> Lists {
        let counts = needs(block).expect("a block that is accepted");
        let mut lists = Lists {
            words: vec![0; counts.words().expect("words that can be lent")],
            counts,
            bytes: vec![0; 64 + 50 * counts.of(List::Events) as usize],
        };
        lists.read_again(block);
        lists
    }

    fn read_again(&mut self, block: &[u8]) {
        let mut answer = [0; raw::NUMBERS];
        let capacities = self.counts.in_order();
        let code = raw::ducat_read(black_box(block), &mut self.words, capacities, &mut answer);
        assert_eq!(code, 0, "a block that is accepted");
        black_box(&self.words);
    }

    /// How many bytes the index is written as.
    fn written(&mut self) -> usize {
        let mut answer = [0; raw::INDEX_NUMBERS];
        let numbers = self.counts.in_order();
        let words = black_box(&self.words);
        let code = raw::ducat_index_write(words, numbers, numbers, &mut self.bytes, &mut answer);
        assert_eq!(code, 0, "lists that fit together, and room");
        answer[4] as usize
    }

    fn write(&mut self) -> Vec<u8> {
        let written = self.written();
        self.bytes[..written].to_vec()
    }
}

/// Words for an index that is read back.
struct Back {
    numbers: Vec<u32>,
}

impl Back {
    /// What the library reads must be what the plain loop reads.
    fn new(index: &[u8]) -> Back {
        let mut expected = Vec::new();
        plain(index, &mut expected).expect("an index");
        let numbers = vec![0; expected.len()];
        let mut back = Back { numbers };
        back.library(index);
        assert_eq!(back.numbers, expected, "the words of the plain loop");
        back
    }

    fn library(&mut self, index: &[u8]) {
        let mut answer = [0; raw::INDEX_NUMBERS];
        let code = raw::ducat_index_read(black_box(index), &mut self.numbers, &mut answer);
        assert_eq!(code, 0, "an index");
        black_box(&self.numbers);
    }

    fn plain_loop(&mut self, index: &[u8]) {
        self.numbers.clear();
        plain(black_box(index), &mut self.numbers).expect("an index");
        black_box(&self.numbers);
    }
}

/// Every number after the edition, as words, in one pass, with all tests that the library makes. It
/// pushes as it goes, where there is room already, so a refusal leaves words behind.
fn plain(index: &[u8], words: &mut Vec<u32>) -> Result<(), Fault> {
    let mut at = 0;
    if number(index, &mut at, WORD)? != 1 {
        return Err(Fault(17, 0));
    }
    let providers = number(index, &mut at, WORD)?;
    words.push(providers as u32);
    for _ in 0..providers {
        words.push(number(index, &mut at, WORD)? as u32);
    }
    let entries = number(index, &mut at, WORD)?;
    words.push(entries as u32);
    for _ in 0..entries {
        for most in ENTRY {
            let number = number(index, &mut at, most)?;
            words.push(number as u32);
            if most == u64::MAX {
                words.push((number >> 32) as u32);
            }
        }
    }
    if at != index.len() {
        return Err(Fault(18, at));
    }
    Ok(())
}

fn number(index: &[u8], at: &mut usize, most: u64) -> Result<u64, Fault> {
    let first = *at;
    let mut value = 0;
    for i in 0..10 {
        let Some(&byte) = index.get(first + i) else {
            return Err(Fault(15, first));
        };
        let group = u64::from(byte & 127);
        value |= group << (7 * i);
        if byte < 128 {
            let padded = byte == 0 && i > 0;
            if padded || value > most || (i == 9 && group > 1) {
                return Err(Fault(16, first));
            }
            *at = first + i + 1;
            return Ok(value);
        }
    }
    Err(Fault(16, first))
}

/// Indexes that are made here: as of a maker's events, and with numbers of all lengths.
fn made() -> [(&'static str, Vec<u8>); 2] {
    let mut rng = Rng::new(1, 0);
    let mut events = head();
    let mut mixed = head();
    for i in 0..65_536 {
        let keywords = 0x8000_0000_0000_0000 | 1 << rng.below(12);
        let [version, opcode, task] = [3, 20, 500].map(|n| rng.below(n) as u64);
        let entry = [
            i / 16_384,
            i,
            version,
            16,
            4,
            opcode,
            task,
            keywords,
            258 + 200 * i,
        ];
        entry.into_iter().for_each(|n| put(&mut events, n));
        for most in ENTRY {
            let any = u64::from(rng.word()) << 32 | u64::from(rng.word());
            put(&mut mixed, (any & most) >> rng.below(64));
        }
    }
    [
        (
            "fields as in a maker's events, keywords of ten bytes",
            events,
        ),
        ("fields of all lengths", mixed),
    ]
}

/// The edition, four providers, and how many entries.
fn head() -> Vec<u8> {
    let mut bytes = Vec::new();
    [1, 4, 0, 1, 2, 3, 65_536]
        .into_iter()
        .for_each(|n| put(&mut bytes, n));
    bytes
}

fn put(bytes: &mut Vec<u8>, mut number: u64) {
    while number >= 128 {
        bytes.push(number as u8 | 128);
        number >>= 7;
    }
    bytes.push(number as u8);
}
