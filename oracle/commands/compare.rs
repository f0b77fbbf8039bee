//! compare COUNT SEED JOBS: generated blobs through the original and through the library.
//!
//! What the library must answer is what the amended original answers. What the original itself
//! answers is that too, or else one of the cases of docs/DIFFERENCES.md, of which each is counted.
//!
//! Of each blob it is asked what it needs, and it is read several times, with memory lent in
//! different ways. Compared are all numbers of the answers and every lent word: those that must be
//! written, and those that must be kept.
//!
//! Names that ended and names that ran out are counted where the words that say so are compared.
//!
//! In the lists of each accepted blob templates are looked up, by keys and by offsets, and compared
//! with what the original finds; also in the lists of blobs that are made for it.

mod indexing;
mod joining;
mod lending;

use std::fmt;
use std::process::ExitCode;
use std::sync::atomic::{AtomicBool, AtomicU64, Ordering::Relaxed};
use std::thread;

use answers::differences;
use answers::lists::{EVENTS, ITEMS, LISTS, MAP_ENTRIES, ROWS, UNKNOWN2, row_of};
use answers::names::Names;
use answers::tally::Tally;
use answers::{Answer, answer};
use ducatfeather::raw;
use generator::known::{self, Shared};
use generator::{Rng, joins, large};
use indexing::Indexer;
use joining::{Joiner, Lists};
use lending::{COUNTS, Lending, NUMBERS, Numbers, Reader};

/// How many large blobs there are, whatever the count.
const LARGE: u64 = 64;

/// Among so many blobs each case, each sort of name and each list's shortage must come.
const ENOUGH: u64 = 20_000;

/// Of so many blobs one more is made for joins; and some large ones, whatever the count.
const PER_JOINED: u64 = 4;
const LARGE_JOINED: u64 = 8;

fn main() -> ExitCode {
    let arguments: Vec<Option<u64>> = std::env::args().skip(1).map(|a| a.parse().ok()).collect();
    let &[Some(count), Some(seed), Some(jobs @ 1..)] = arguments.as_slice() else {
        eprintln!("usage: oracle/compare [COUNT] [SEED] [JOBS]");
        return ExitCode::from(2);
    };
    let run = Run {
        seed,
        count,
        next: AtomicU64::new(0),
        failed: AtomicBool::new(false),
    };
    let totals: Vec<Totals> = thread::scope(|scope| {
        let workers: Vec<_> = (0..jobs).map(|_| scope.spawn(|| run.work())).collect();
        let joined = workers.into_iter().map(|worker| worker.join());
        joined.map(|totals| totals.unwrap_or_default()).collect()
    });
    if run.failed.load(Relaxed) {
        return ExitCode::FAILURE;
    }
    if let Err(difference) = past_32_bits() {
        eprintln!("{difference}");
        return ExitCode::FAILURE;
    }
    let total = totals.into_iter().fold(Totals::default(), Totals::plus);
    println!(
        "{count} blobs of seed {seed} and {LARGE} large ones: {} accepted, {} refused; \
         needs asked {} times; {} readings, {} of them 7, {} 8, {} 9: no difference",
        total.accepted,
        total.refused,
        total.asked,
        total.readings,
        total.by_code[7],
        total.by_code[8],
        total.by_code[9]
    );
    print!("{}{}", total.tally, total.names);
    let joins = &total.joins;
    println!(
        "joins in these, in {} blobs made for joins and in {LARGE_JOINED} large ones: {} blobs with \
         events that have templates; {} keys, {} of them with templates, {} with several; where two \
         providers have one GUID, {} with templates, {} of several providers, {} with a GUID of \
         several, {} of a later provider alone; {} offsets, {} of them of a template, {} behind \
         another provider's at that offset; {} lookups, {} of them 8, {} 9, {} 10: no difference",
        count / PER_JOINED,
        joins.blobs,
        joins.keys,
        joins.given,
        joins.several,
        joins.repeated,
        joins.shared,
        joins.twice,
        joins.later,
        joins.offsets,
        joins.found,
        joins.behind,
        joins.by_code.iter().sum::<u64>(),
        joins.by_code[8],
        joins.by_code[9],
        joins.by_code[10]
    );
    let indexes = &total.indexes;
    println!(
        "{} indexes written and read back, {} of them with entries: {} of {} events; {} refused with 10",
        indexes.written, indexes.filled, indexes.entries, indexes.events, indexes.apart
    );
    let missing = total.missing();
    if count < ENOUGH || missing.is_empty() {
        return ExitCode::SUCCESS;
    }
    for what in missing {
        eprintln!("never came: {what}");
    }
    ExitCode::FAILURE
}

struct Run {
    seed: u64,
    count: u64,
    /// The next blob that nobody has taken. The large ones come first, since they take longest.
    next: AtomicU64,
    failed: AtomicBool,
}

#[derive(Default)]
struct Totals {
    accepted: u64,
    refused: u64,
    /// How often it was asked what is needed.
    asked: u64,
    readings: u64,
    by_code: [u64; 10],
    /// How often each list was too small.
    short: [u64; LISTS],
    tally: Tally,
    names: Names,
    joins: joining::Totals,
    indexes: indexing::Totals,
}

impl Totals {
    fn plus(mut self, other: Totals) -> Totals {
        self.accepted += other.accepted;
        self.refused += other.refused;
        self.asked += other.asked;
        self.readings += other.readings;
        let mine = self.by_code.iter_mut().chain(&mut self.short);
        let theirs = other.by_code.iter().chain(&other.short);
        mine.zip(theirs).for_each(|(mine, theirs)| *mine += theirs);
        self.tally.add(&other.tally);
        self.names.add(&other.names);
        self.joins.add(&other.joins);
        self.indexes.add(&other.indexes);
        self
    }

    /// What should have come and didn't.
    fn missing(&self) -> Vec<String> {
        let cases = self.tally.missing().into_iter();
        let short = ROWS.iter().zip(self.short).filter(|(_, times)| *times == 0);
        cases
            .map(|case| case.to_string())
            .chain(self.names.missing())
            .chain(self.joins.missing())
            .chain(self.indexes.missing())
            .chain(short.map(|(row, _)| format!("list {} too small", row.number)))
            .collect()
    }
}

/// What a blob is made for, and which of them it is.
#[derive(Clone, Copy)]
enum Source {
    Any(u64),
    Large(u64),
    Joined(u64),
    LargeJoined(u64),
}

impl Source {
    /// The blob of a seed, and numbers for what is done with it.
    fn blob(self, seed: u64) -> (Vec<u8>, Rng) {
        let (Source::Any(index)
        | Source::Large(index)
        | Source::Joined(index)
        | Source::LargeJoined(index)) = self;
        let mut rng = Rng::new(seed, index);
        let blob = match self {
            Source::Any(_) => generator::blob(&mut rng, generator::DAMAGED),
            Source::Large(_) => large::blob(&mut rng),
            Source::Joined(_) => joins::blob(&mut rng),
            Source::LargeJoined(_) => joins::large(&mut rng),
        };
        (blob, rng)
    }
}

/// As `generate` takes it.
impl fmt::Display for Source {
    fn fmt(&self, f: &mut fmt::Formatter<'_>) -> fmt::Result {
        match self {
            Source::Any(index) => write!(f, "blob {index}"),
            Source::Large(index) => write!(f, "blob {index} --large"),
            Source::Joined(index) => write!(f, "blob {index} --joins"),
            Source::LargeJoined(index) => write!(f, "blob {index} --joins --large"),
        }
    }
}

impl Run {
    /// The blob with a number, if there are so many.
    fn source(&self, number: u64) -> Option<Source> {
        let joined = self.count / PER_JOINED;
        let sources: [(u64, fn(u64) -> Source); 4] = [
            (LARGE, Source::Large),
            (LARGE_JOINED, Source::LargeJoined),
            (joined, Source::Joined),
            (self.count, Source::Any),
        ];
        let mut index = number;
        for (count, source) in sources {
            match index.checked_sub(count) {
                None => return Some(source(index)),
                Some(rest) => index = rest,
            }
        }
        None
    }

    /// Takes blobs until there are none left, or one differs.
    fn work(&self) -> Totals {
        let mut worker = Worker::default();
        loop {
            let number = self.next.fetch_add(1, Relaxed);
            let source = self.source(number);
            let Some(source) = source.filter(|_| !self.failed.load(Relaxed)) else {
                return worker.totals();
            };
            // A panic of the original is a difference too; here it is known of which blob.
            let result = std::panic::catch_unwind(std::panic::AssertUnwindSafe(|| {
                worker.compare(self.seed, source)
            }));
            let difference = match result {
                Ok(Ok(())) => continue,
                Ok(Err(difference)) => difference,
                Err(_) => "no answer".to_string(),
            };
            if !self.failed.swap(true, Relaxed) {
                eprintln!("{source} of seed {}: {difference}", self.seed);
            }
            return worker.totals();
        }
    }
}

#[derive(Default)]
struct Worker {
    reader: Reader,
    joiner: Joiner,
    indexer: Indexer,
    totals: Totals,
    /// The longest bytes that are lent, and some more: any blob can stand at their start.
    long: Vec<u8>,
}

impl Worker {
    fn totals(self) -> Totals {
        Totals {
            joins: self.joiner.totals,
            indexes: self.indexer.totals,
            ..self.totals
        }
    }

    fn compare(&mut self, seed: u64, source: Source) -> Result<(), String> {
        let (blob, mut rng) = source.blob(seed);
        let compared = differences::compare(&blob);
        let compared = compared.map_err(|difference| format!("{difference}{}", shown(&blob)))?;
        self.totals.tally.count(&compared);
        let found = compared.answer;
        // Where a list can't have the room that it needs, no word is compared.
        if Lending::exact(&found.counts()).expected(&found)[0] == 0 {
            self.totals.names.count(&blob, &found);
        }
        let (is_large, index) = match source {
            Source::Any(index) => (false, index),
            Source::Large(index) => (true, index),
            Source::Joined(_) | Source::LargeJoined(_) => {
                return self.join(&blob, &found, &mut rng);
            }
        };
        match found.code {
            0 => self.totals.accepted += 1,
            _ => self.totals.refused += 1,
        }
        self.lend_in_turn(&blob, &found, &mut rng)?;
        // Roomy to the limit takes time: 24 megabytes of words.
        if is_large || index.is_multiple_of(5000) {
            self.read(&blob, &found, &Lending::most())?;
        }
        if !is_large && index.is_multiple_of(16) {
            self.lend_longer(&blob, &mut rng)?;
        }
        self.join(&blob, &found, &mut rng)
    }

    /// Looks up in the lists of an accepted blob, if they have room.
    fn join(&mut self, blob: &[u8], found: &Answer, rng: &mut Rng) -> Result<(), String> {
        let lending = Lending::roomy(&found.counts(), rng);
        let expected = lending.expected(found);
        if expected[0] != 0 {
            return Ok(());
        }
        let read = self.reader.read(blob, &lending, &expected, &found.lists);
        let joined = read.and_then(|()| {
            let lists = Lists {
                words: self.reader.words(),
                capacities: lending.capacities,
                counts: found.counts().map(|count| count as u32),
            };
            self.joiner.join(&lists, blob, found, rng)?;
            self.indexer.index(&lists, blob, found, rng)
        });
        joined.map_err(|difference| format!("{difference}{}", shown(blob)))?;
        match self.reader.kept() {
            true => Ok(()),
            false => Err(format!("a lookup changed a word{}", shown(blob))),
        }
    }

    /// The same bytes with words that fit, are more, are too few, or are refused.
    fn lend_in_turn(&mut self, blob: &[u8], found: &Answer, rng: &mut Rng) -> Result<(), String> {
        let counts = found.counts();
        lending::needs(blob, found).map_err(|difference| format!("{difference}{}", shown(blob)))?;
        self.totals.asked += 1;
        self.read(blob, found, &Lending::exact(&counts))?;
        self.read(blob, found, &Lending::roomy(&counts, rng))?;
        self.read(blob, found, &Lending::refused(&counts, rng))?;
        if counts.iter().any(|&count| count > 0) {
            self.read(blob, found, &Lending::one_short(&counts, rng))?;
            self.read(blob, found, &Lending::several_short(&counts, rng))?;
        }
        Ok(())
    }

    /// More bytes: behind the blob's size they don't matter, up to the longest that is read.
    fn lend_longer(&mut self, blob: &[u8], rng: &mut Rng) -> Result<(), String> {
        let mut long = std::mem::take(&mut self.long);
        long.resize(large::LONGEST + 64, 0xa5);
        let before = long[..blob.len()].to_vec();
        long[..blob.len()].copy_from_slice(blob);
        let some = blob.len() + rng.between(1, 64);
        let past = large::LONGEST + rng.between(1, 64);
        for length in [some, large::LONGEST, large::LONGEST + 1, past] {
            let bytes = &long[..length];
            self.lend_in_turn(bytes, &answer(bytes), rng)?;
        }
        long[..blob.len()].copy_from_slice(&before);
        self.long = long;
        Ok(())
    }

    fn read(&mut self, blob: &[u8], found: &Answer, lending: &Lending) -> Result<(), String> {
        let expected = lending.expected(found);
        let read = self.reader.read(blob, lending, &expected, &found.lists);
        self.totals.readings += 1;
        self.totals.by_code[expected[0] as usize] += 1;
        if expected[0] == 9 {
            self.totals.short[row_of(expected[3] as u32)] += 1;
        }
        read.map_err(|difference| format!("{difference}{}", shown(blob)))
    }
}

/// Many providers over one WEVT: so many entries that their number, kept in 32 bits, would come out
/// as one that fits. The original has no memory for them; what the answer must be is plain.
fn past_32_bits() -> Result<(), String> {
    let mut reader = Reader::default();
    for (what, list) in [
        (Shared::Unknown2, UNKNOWN2),
        (Shared::Events, EVENTS),
        (Shared::MapEntries, MAP_ENTRIES),
        (Shared::Items, ITEMS),
    ] {
        let blob = known::shared(65_536, 65_537, what);
        let mut expected: Numbers = [0; NUMBERS];
        [expected[0], expected[3], expected[4]] = [9, list.into(), 65_536];
        let read = reader.read(&blob, &Lending::most(), &expected, &Default::default());
        read.map_err(|difference| {
            format!("65536 providers with 65537 {what:?} each: {difference}")
        })?;
        let mut needed: Numbers = [0; NUMBERS];
        raw::ducat_needs(&blob, &mut needed);
        if [needed[0], needed[COUNTS + row_of(list)]] != [0, 65_537] {
            return Err(format!(
                "65536 providers with 65537 {what:?} each: they need {needed:?}"
            ));
        }
    }
    Ok(())
}

/// A blob's bytes, if they aren't too many to look at.
fn shown(blob: &[u8]) -> String {
    if blob.len() > 4096 {
        return format!("\n{} bytes", blob.len());
    }
    let hex: String = blob.iter().map(|byte| format!("{byte:02x}")).collect();
    format!("\n{hex}")
}
