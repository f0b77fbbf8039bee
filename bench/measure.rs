//! Times and memory.

use std::hint::black_box;
use std::time::{Duration, Instant};

use ducatfeather::{Capacities, List, raw};
use original::wevt_templates::manifest::CrimManifest;

/// Words that are lent to each reading: as many as there can be.
pub struct Lent {
    words: Vec<u32>,
}

impl Lent {
    pub fn new() -> Lent {
        Lent {
            words: vec![0; Capacities::MOST.words().unwrap_or(0)],
        }
    }

    /// One reading by the library; gives the code.
    pub fn library(&mut self, blob: &[u8]) -> u32 {
        let mut answer = [0; raw::NUMBERS];
        let capacities = Capacities::MOST.in_order();
        let code = raw::ducat_read(black_box(blob), &mut self.words, capacities, &mut answer);
        black_box((&self.words, &answer));
        code
    }
}

/// One reading by the original, whose value is dropped at once; whether it accepts.
pub fn original(blob: &[u8]) -> bool {
    let manifest = CrimManifest::parse(black_box(blob));
    black_box(&manifest).is_ok()
}

/// Whether both accept a block, and find as many items in it: whether they do the same work.
pub fn same_items(blob: &[u8]) -> bool {
    let (Ok(manifest), Ok(needs)) = (CrimManifest::parse(blob), ducatfeather::needs(blob)) else {
        return false;
    };
    let providers = manifest.providers.iter();
    let tables = providers.filter_map(|provider| provider.wevt.elements.templates.as_ref());
    let templates = tables.flat_map(|table| &table.templates);
    let items: usize = templates.map(|template| template.items.len()).sum();
    items == needs.of(List::Items) as usize
}

/// Asks the library what a block needs; gives the code.
pub fn needs(blob: &[u8]) -> u32 {
    let mut answer = [0; raw::NUMBERS];
    let code = raw::ducat_needs(black_box(blob), &mut answer);
    black_box(&answer);
    code
}

/// The medians of many readings in nanoseconds: by the original, by the library, and by the library
/// that is only asked what is needed.
pub fn readings(blob: &[u8], lent: &mut Lent) -> [f64; 3] {
    medians([
        &mut || {
            original(blob);
        },
        &mut || {
            lent.library(blob);
        },
        &mut || {
            needs(blob);
        },
    ])
}

/// The medians of many runs of each, in nanoseconds. They take turns, so that whatever else the
/// machine does hits all of them.
pub fn medians<const N: usize>(runs: [&mut dyn FnMut(); N]) -> [f64; N] {
    let timed = |repeats: u32, run: &mut dyn FnMut()| {
        let start = Instant::now();
        for _ in 0..repeats {
            run();
        }
        start.elapsed() / repeats
    };
    // A short run is repeated, so that the clock doesn't matter.
    let repeats = |once: Duration| (2_000_000 / once.as_nanos().max(1)).clamp(1, 50_000) as u32;
    // The first of each isn't counted: it brings the bytes and the words into the caches.
    let mut runs = runs.map(|run| {
        let turns = repeats(timed(1, run));
        timed(turns, run);
        (repeats(timed(turns, run)), run, Vec::new())
    });
    let start = Instant::now();
    for turn in 0..101 {
        if turn >= 15 && start.elapsed() >= Duration::from_secs(4) {
            break;
        }
        // Who begins changes, so that what comes at regular times doesn't always hit the same one.
        for place in 0..N {
            let (repeats, run, times) = &mut runs[(turn + place) % N];
            times.push(timed(*repeats, run));
        }
    }
    runs.map(|(_, _, times)| median(times))
}

fn median(mut times: Vec<Duration>) -> f64 {
    times.sort();
    times[times.len() / 2].as_nanos() as f64
}

/// The most memory that this process has had so far, in kibibytes.
pub fn peak() -> u64 {
    let status = std::fs::read_to_string("/proc/self/status").unwrap_or_default();
    let line = status.lines().find_map(|line| line.strip_prefix("VmHWM:"));
    let number = line.and_then(|line| line.split_whitespace().next()?.parse().ok());
    number.expect("VmHWM in /proc/self/status")
}
