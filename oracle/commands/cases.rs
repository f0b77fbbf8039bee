//! cases: the answers to the cases of docs/FORMAT.md, held against what is said there of them; those to
//! a name of each sort in each kind of entry, held against `named.rs`; and the smallest inputs of
//! docs/DIFFERENCES.md, which must stand there and differ as it says. Where the original answers
//! otherwise, its answer comes too.

mod named;

use std::process::ExitCode;

use answers::differences::{Case, compare};
use answers::lists::{DESCRIPTORS, ITEMS, PROVIDERS, TABLES, TEMPLATES, row_of};
use answers::{Answer, refusal};
use generator::known;

const DOCUMENT: &str = include_str!("../../docs/DIFFERENCES.md");

fn main() -> ExitCode {
    let mut faults = Vec::new();
    let cases = [known::cases(), known::named()].concat();
    // The original answers all with each sort of name alike.
    let named = named::expected().into_iter().map(|answer| (answer, None));
    let expected: Vec<_> = expected().into_iter().chain(named).collect();
    assert_eq!(cases.len(), expected.len());
    for ((name, blob), (answer, case)) in cases.into_iter().zip(expected) {
        match told(name, &blob) {
            Some(found) if found == (answer.clone(), case) => {}
            _ => faults.push(format!(
                "{name}: expected, with the case {case:?}: {answer}"
            )),
        }
    }
    let inputs = documented();
    for (case, blob) in Case::ALL.into_iter().zip(known::item_differences()) {
        match told(&format!("the least with {case}"), &blob) {
            Some((_, Some(found))) if found == case => {}
            _ => faults.push(format!("the least with {case}: it isn't\n")),
        }
        if !DOCUMENT.contains(&format!("\n| {case} |")) {
            faults.push(format!("{case}: no row of the document\n"));
        }
        if !inputs.contains(&blob) {
            faults.push(format!(
                "the least with {case}: not in the document: {blob:02x?}\n"
            ));
        }
    }
    for fault in &faults {
        print!("DIFFERS: {fault}");
    }
    if faults.is_empty() {
        println!("differing: nothing");
        ExitCode::SUCCESS
    } else {
        println!("differing: {}", faults.len());
        ExitCode::FAILURE
    }
}

/// Prints what is answered to a blob, and what the original answers if that differs; gives the answer
/// and in which case it differs. Nothing if it differs in another way.
fn told(name: &str, blob: &[u8]) -> Option<(Answer, Option<Case>)> {
    match compare(blob) {
        Ok(compared) => {
            print!("{name}: {}", compared.answer);
            if let Some(case) = compared.case {
                print!("  the original, {case}: {}", compared.original);
            }
            Some((compared.answer, compared.case))
        }
        Err(difference) => {
            println!("{name}: {difference}");
            None
        }
    }
}

/// What docs/FORMAT.md says of the cases, in their order, and in which case the original differs.
fn expected() -> Vec<(Answer, Option<Case>)> {
    // The name is another, of size 4.
    let mut over_header = u_named([100, 104, 0, 0]);
    over_header.lists[row_of(TEMPLATES)][7] = 4;
    vec![
        (refusal(1, 1, 0, 4, 0), None),
        (z_accepted(), None),
        (z_accepted(), None),
        (refusal(3, 2, 0, 15, 0), None),
        (refusal(3, 2, 0, 17, 0), None),
        (refusal(1, 6, 16, 20, 0), None),
        (t_accepted(), None),
        (refusal(1, 80, 76, 40, 39), None),
        (refusal(3, 82, 76, 39, 0), None),
        (refusal(5, 85, 75, 116, 0), None),
        (refusal(5, 89, 41, 40, 0), None),
        (refusal(4, 88, 88, 1, 0), None),
        (u_named([136, 140, 1, 1]), None),
        (u_named([136, 140, 2, 0]), None),
        (u_named([136, 140, 0, 1]), None),
        (u_named([0, 0, 0, 0]), None),
        (refusal(1, 137, 116, 40, 28), None),
        (refusal(1, 137, 116, 40, 28), None),
        (refusal(1, 137, 144, 20, 0), Some(Case::OffsetZero)),
        (refusal(5, 146, 75, 152, 0), Some(Case::NameBefore)),
        (over_header, Some(Case::NameBeforeItemsEnd)),
        (refusal(5, 149, 145, 144, 0), Some(Case::NamePast)),
        (refusal(1, 149, 144, 4, 0), Some(Case::NamePlace)),
        (refusal(3, 149, 136, 3, 0), Some(Case::NamePlace)),
        (refusal(6, 149, 136, 0, 0), Some(Case::NamePlace)),
        (refusal(1, 149, 136, 10, 8), Some(Case::NamePlace)),
        (refusal(6, 149, 136, 0, 0), Some(Case::NamePlace)),
    ]
}

fn z_accepted() -> Answer {
    Answer {
        first: 16,
        ..Answer::default()
    }
}

fn t_accepted() -> Answer {
    let mut t = Answer {
        first: 116,
        ..Answer::default()
    };
    t.lists[row_of(PROVIDERS)] = vec![0, 0, 0, 0, 36, 80, 0, 1, 0];
    t.lists[row_of(DESCRIPTORS)] = vec![64, 0, u32::from_le_bytes(*b"TTBL")];
    t.lists[row_of(TABLES)] = vec![0, 8, 64, 52, 0, 0, 1, 0, 0];
    t.lists[row_of(TEMPLATES)] = vec![0, 76, 40, 0, 0, 0, 0, 0, 0, 0, 0, 116, 0];
    t
}

/// U, its item with these last words, which are the name's.
fn u_named([offset, start, units, ended]: [u32; 4]) -> Answer {
    let mut u = t_accepted();
    u.first = 152;
    u.lists[row_of(TABLES)] = vec![0, 8, 64, 80, 0, 0, 1, 0, 0];
    u.lists[row_of(TEMPLATES)] = vec![0, 76, 68, 1, 1, 116, 0, 0, 0, 0, 0, 116, 0];
    u.lists[row_of(ITEMS)] = vec![0, 0, 0, 0, 0, 0, offset, start, units, ended];
    u
}

/// The inputs that the document shows as hexadecimal bytes: those of lines that follow one another
/// belong together, and behind them a line may say more.
fn documented() -> Vec<Vec<u8>> {
    let mut inputs = vec![Vec::new()];
    for line in DOCUMENT.lines() {
        let bytes = bytes(line);
        if bytes.is_empty() {
            inputs.push(Vec::new());
        }
        inputs.last_mut().expect("one at least").extend(bytes);
    }
    inputs
}

/// The bytes that an indented line starts with.
fn bytes(line: &str) -> Vec<u8> {
    let words = line.split_whitespace().filter(|_| line.starts_with("    "));
    let digits =
        |word: &&str| word.len().is_multiple_of(2) && word.chars().all(|c| c.is_ascii_hexdigit());
    let all: String = words.take_while(digits).collect();
    let pairs = all.as_bytes().chunks_exact(2);
    let byte = |pair: &[u8]| u8::from_str_radix(std::str::from_utf8(pair).ok()?, 16).ok();
    pairs.filter_map(byte).collect()
}
