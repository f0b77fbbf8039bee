//! readable SEED FOLDER: blobs to `FOLDER/stdin`, and to `FOLDER/stdout` what a reader of them must
//! print: the original's answers, one line each, and behind an accepted one a line for each list
//! that has entries.
//!
//! The blobs are the cases of docs/FORMAT.md, those with each sort of name, for each pair of code and
//! field the shortest generated one that has it, some accepted ones that are special, and some whose
//! lent memory doesn't do.
//! A record has `RECORD` bytes: 32-bit little-endian numbers (the lengths of the name and of the
//! blob, a capacity for each list), the name and the blob, each with zeros behind it up to its room.

use std::collections::BTreeMap;
use std::path::PathBuf;
use std::process::ExitCode;

use answers::lists::{
    DESCRIPTORS, ITEMS, LISTS, PROVIDERS, ROWS, TABLES, TEMPLATES, UNKNOWN_ELEMENTS, UNKNOWN2,
    row_of,
};
use answers::{Answer, answer, fields, fields::Pair};
use generator::{Rng, known};

/// How many generated blobs are looked at.
const LOOKED_AT: u64 = 1_000_000;

/// The bytes of the two lengths and the capacities, and the room for a name and for a blob.
const NUMBERS: usize = 4 * (2 + LISTS);
const NAME: usize = 80;
const BLOB: usize = 512;
const RECORD: usize = NUMBERS + NAME + BLOB;

/// The capacity of each list where nothing else is said.
const CAPACITY: u32 = 64;

struct Case {
    name: String,
    blob: Vec<u8>,
    capacities: [u32; LISTS],
    expected: Answer,
}

fn main() -> ExitCode {
    let mut arguments = std::env::args().skip(1);
    let (Some(Ok(seed)), Some(folder), None) = (
        arguments.next().map(|a| a.parse()),
        arguments.next().map(PathBuf::from),
        arguments.next(),
    ) else {
        eprintln!("usage: readable SEED FOLDER");
        return ExitCode::from(2);
    };
    let Some(cases) = cases(seed) else {
        return ExitCode::FAILURE;
    };
    let records: Vec<u8> = cases.iter().flat_map(record).collect();
    let lines: String = cases.iter().map(lines).collect();
    let written = std::fs::write(folder.join("stdin"), records)
        .and_then(|()| std::fs::write(folder.join("stdout"), lines));
    match written {
        Ok(()) => {
            let longest = cases.iter().map(|case| case.blob.len()).max();
            println!(
                "{} blobs, the longest of {} bytes",
                cases.len(),
                longest.unwrap_or(0)
            );
            ExitCode::SUCCESS
        }
        Err(error) => {
            eprintln!("readable: {error}");
            ExitCode::FAILURE
        }
    }
}

/// All cases, or nothing if a pair has no blob that is short enough.
fn cases(seed: u64) -> Option<Vec<Case>> {
    let named = known::cases().into_iter().chain(known::named());
    let mut cases: Vec<Case> = named
        .map(|(name, blob)| answered(name.into(), blob))
        .collect();
    let (shortest, special) = generated(seed);
    for pair in fields::promised() {
        // Z is the shortest of those that are accepted.
        if pair == (0, 0) {
            continue;
        }
        let Some(blob) = shortest.get(&pair) else {
            eprintln!("no blob of at most {BLOB} bytes has the pair {pair:?}");
            return None;
        };
        cases.push(answered(name(pair), blob.clone()));
    }
    for (Special { name, .. }, blob) in SPECIAL.iter().zip(special) {
        let Some(blob) = blob else {
            eprintln!("no accepted blob of at most {BLOB} bytes has {name}");
            return None;
        };
        cases.push(answered((*name).into(), blob));
    }
    cases.extend(own());
    Some(cases)
}

/// What an accepted blob may have.
struct Special {
    name: &'static str,
    has: fn(&[u8], &Answer) -> bool,
}

const SPECIAL: [Special; 3] = [
    Special {
        name: "entries in every list",
        has: |_, answer| !answer.counts().contains(&0),
    },
    Special {
        name: "items of two providers",
        has: |_, answer| items_of_two_tables(answer),
    },
    Special {
        name: "items of a table that is replaced",
        has: items_replaced,
    },
];

fn items_of_two_tables(answer: &Answer) -> bool {
    let tables = answer.entries(TABLES).filter(|table| table[1] == 8);
    let with_items = tables.filter(|table| {
        let templates = table[5]..table[5] + table[6];
        let mut items = answer.entries(ITEMS);
        items.any(|item| templates.contains(&item[0]))
    });
    with_items.count() > 1
}

/// Whether some items are listed, and a TTBL that isn't has some in its first TEMP.
fn items_replaced(blob: &[u8], answer: &Answer) -> bool {
    let replaced = |at: u32| answer.entries(TABLES).all(|table| table[2] != at);
    // How many TEMPs it has, and how many items the first of them.
    let has_items = |at: u32| {
        let ttbl = &blob[at as usize..];
        ttbl[8..12] != [0; 4] && ttbl[20..24] != [0; 4]
    };
    let ttbl = u32::from_le_bytes(*b"TTBL");
    let mut named = answer.entries(DESCRIPTORS).filter(|named| named[2] == ttbl);
    answer.entries(ITEMS).next().is_some()
        && named.any(|named| replaced(named[0]) && has_items(named[0]))
}

/// A blob with the answer to it.
fn answered(name: String, blob: Vec<u8>) -> Case {
    Case {
        expected: answer(&blob),
        name,
        blob,
        capacities: [CAPACITY; LISTS],
    }
}

/// What a refusal is about.
fn name((code, field): Pair) -> String {
    let field = fields::all().iter().find(|known| known.number == field);
    match (code, field) {
        (2, _) => "wrong signature".into(),
        (_, Some(field)) => field.text.into(),
        (_, None) => format!("code {code}"),
    }
}

/// The shortest blob of each pair, and the shortest accepted one that is special in each way.
fn generated(seed: u64) -> (BTreeMap<Pair, Vec<u8>>, [Option<Vec<u8>>; SPECIAL.len()]) {
    let mut shortest: BTreeMap<Pair, Vec<u8>> = BTreeMap::new();
    let mut special: [Option<Vec<u8>>; SPECIAL.len()] = Default::default();
    for index in 0..LOOKED_AT {
        let blob = generator::blob(&mut Rng::new(seed, index), generator::DAMAGED);
        if blob.len() > BLOB {
            continue;
        }
        let found = answer(&blob);
        let shorter = |known: &Vec<u8>| blob.len() < known.len();
        for (special, known) in SPECIAL.iter().zip(&mut special) {
            if found.code == 0 && known.as_ref().is_none_or(shorter) && (special.has)(&blob, &found)
            {
                *known = Some(blob.clone());
            }
        }
        let pair = (found.code, found.field);
        if shortest.get(&pair).is_none_or(shorter) {
            shortest.insert(pair, blob);
        }
    }
    (shortest, special)
}

/// Codes 8 and 9, which are the port's own: what docs/FORMAT.md says of them, and of their order.
fn own() -> Vec<Case> {
    let room = |list: u32, capacity| {
        let mut capacities = [CAPACITY; LISTS];
        capacities[row_of(list)] = capacity;
        capacities
    };
    let refusal = |code, first, second| Answer {
        code,
        first,
        second,
        ..Answer::default()
    };
    let t = known::t();
    let case = |name: &str, blob: &[u8], capacities, expected| Case {
        name: name.into(),
        blob: blob.into(),
        capacities,
        expected,
    };
    let short = known::with(&t, 80, 39);
    vec![
        case(
            "T with no room for a template",
            &t,
            room(TEMPLATES, 0),
            refusal(9, TEMPLATES.into(), 0),
        ),
        case(
            "U with no room for an item",
            &known::u(),
            room(ITEMS, 0),
            refusal(9, ITEMS.into(), 0),
        ),
        case(
            "T with no room at all",
            &t,
            [0; LISTS],
            refusal(9, PROVIDERS.into(), 0),
        ),
        case(
            "T with a capacity of 65,537",
            &t,
            room(UNKNOWN2, 65_537),
            refusal(8, 0, 0),
        ),
        case(
            "T with areas that need too many words",
            &t,
            [65; LISTS],
            refusal(8, 0, 0),
        ),
        case(
            "empty with a capacity of 65,537",
            &[],
            room(UNKNOWN_ELEMENTS, 65_537),
            refusal(8, 0, 0),
        ),
        case(
            "TEMP.size 39 with no room at all",
            &short,
            [0; LISTS],
            answer(&short),
        ),
    ]
}

fn record(case: &Case) -> Vec<u8> {
    assert!(case.name.len() <= NAME && case.blob.len() <= BLOB);
    let lengths = [case.name.len(), case.blob.len()].map(|length| length as u32);
    let numbers = lengths.iter().chain(&case.capacities);
    let mut record: Vec<u8> = numbers.flat_map(|number| number.to_le_bytes()).collect();
    record.extend(case.name.as_bytes());
    record.resize(NUMBERS + NAME, 0);
    record.extend(&case.blob);
    record.resize(RECORD, 0);
    record
}

fn lines(case: &Case) -> String {
    let Answer {
        code,
        field,
        place,
        first,
        second,
        lists,
    } = &case.expected;
    let mut lines = format!(
        "{}: code {code} field {field} at {place}: {first}, {second}; counts",
        case.name
    );
    for count in case.expected.counts() {
        lines += &format!(" {count}");
    }
    lines += "\n";
    let rows = ROWS.iter().zip(lists);
    for (row, list) in rows.filter(|(_, list)| !list.is_empty()) {
        lines += &format!("  list {}:", row.number);
        for word in list {
            lines += &format!(" {word}");
        }
        lines += "\n";
    }
    lines
}
