//! sample SEED: a sample of blobs with the original's answers, to standard output, for a program
//! to replay.
//!
//! The output is 32-bit little-endian numbers and nothing else. For each blob: its length, its
//! bytes (zeros behind them up to a multiple of four), code, field, place, first (low, high),
//! second (low, high), a count for each list, and all words of each list. It ends after the last.

mod traits;

use std::collections::{BTreeMap, BTreeSet};
use std::io::{self, BufWriter, Write};
use std::process::ExitCode;

use answers::lists::LISTS;
use answers::{Answer, answer, fields};
use generator::{Rng, known};
use traits::{Trait, traits};

/// How many generated blobs are looked at.
const LOOKED_AT: u64 = 100_000;

/// Blobs of at most so many bytes are looked at first, then longer ones, so that most are small.
/// Those longer than the last are left out: there are enough small ones of everything.
const LENGTHS: [usize; 3] = [160, 320, 640];

/// A blob is taken if it has a trait that fewer than so many taken before it have.
fn wanted(of: Trait) -> u32 {
    match of {
        ("pair", _) => 20,
        _ => 2,
    }
}

fn main() -> ExitCode {
    let mut arguments = std::env::args().skip(1);
    let (Some(Ok(seed)), None) = (arguments.next().map(|a| a.parse()), arguments.next()) else {
        eprintln!("usage: sample SEED >FILE");
        return ExitCode::from(2);
    };
    let sample = sample(seed);
    match write(&sample) {
        Ok(bytes) => report(&sample, bytes),
        Err(error) => {
            eprintln!("sample: {error}");
            ExitCode::FAILURE
        }
    }
}

/// The blobs that have a name, and of the generated ones as many of each trait as are wanted.
fn sample(seed: u64) -> Vec<(Vec<u8>, Answer)> {
    let mut sample = Vec::new();
    let mut taken: BTreeMap<Trait, u32> = BTreeMap::new();
    let named = known::cases().into_iter().chain(known::named());
    let named = named.map(|(_, blob)| blob);
    let smallest = known::smallest().into_iter();
    for blob in named.chain(smallest).chain(known::item_differences()) {
        let found = answer(&blob);
        sample.push((blob, found));
    }
    let mut shorter = 0;
    for longest in LENGTHS {
        for index in 0..LOOKED_AT {
            let blob = generator::blob(&mut Rng::new(seed, index), generator::DAMAGED);
            if !(shorter..=longest).contains(&blob.len()) {
                continue;
            }
            let found = answer(&blob);
            let traits = traits(&blob, &found);
            let lacking = |t: &Trait| taken.get(t).is_none_or(|&times| times < wanted(*t));
            if traits.iter().any(lacking) {
                for t in traits {
                    *taken.entry(t).or_default() += 1;
                }
                sample.push((blob, found));
            }
        }
        shorter = longest + 1;
    }
    sample
}

/// Writes the sample; gives how many bytes it takes.
fn write(sample: &[(Vec<u8>, Answer)]) -> io::Result<usize> {
    let mut output = BufWriter::new(io::stdout().lock());
    let mut bytes = 0;
    for (blob, answer) in sample {
        let mut record = Vec::new();
        record.extend((blob.len() as u32).to_le_bytes());
        record.extend(blob);
        record.resize(record.len().next_multiple_of(4), 0);
        for word in numbers(answer) {
            record.extend(word.to_le_bytes());
        }
        for word in answer.lists.iter().flatten() {
            record.extend(word.to_le_bytes());
        }
        output.write_all(&record)?;
        bytes += record.len();
    }
    output.flush()?;
    Ok(bytes)
}

/// All of an answer but its lists' words.
fn numbers(answer: &Answer) -> Vec<u32> {
    let halves = |number: u64| [number as u32, (number >> 32) as u32];
    let mut numbers = vec![answer.code, answer.field, answer.place];
    numbers.extend(halves(answer.first));
    numbers.extend(halves(answer.second));
    numbers.extend(answer.counts().map(|count| count as u32));
    numbers
}

/// Says what the sample is like. It is no sample if a pair of code and field is missing.
fn report(sample: &[(Vec<u8>, Answer)], bytes: usize) -> ExitCode {
    let accepted = sample.iter().filter(|(_, answer)| answer.code == 0).count();
    let longest = sample.iter().map(|(blob, _)| blob.len()).max();
    let most: [usize; LISTS] = std::array::from_fn(|list| {
        let counts = sample.iter().map(|(_, answer)| answer.counts()[list]);
        counts.max().unwrap_or(0)
    });
    let pairs: BTreeSet<_> = sample
        .iter()
        .map(|(_, answer)| (answer.code, answer.field))
        .collect();
    let missing: Vec<_> = fields::promised().difference(&pairs).copied().collect();
    eprintln!(
        "{} blobs, {accepted} of them accepted, in {bytes} bytes",
        sample.len()
    );
    eprintln!(
        "the longest blob: {} bytes; the most entries of each list: {most:?}",
        longest.unwrap_or(0)
    );
    eprintln!(
        "pairs of code and field: {}; missing: {missing:?}",
        pairs.len()
    );
    if missing.is_empty() {
        ExitCode::SUCCESS
    } else {
        ExitCode::FAILURE
    }
}
