//! bench [WORDS]: times of the original and of the library on the same blocks, as tables. With
//! words, only ordinary blocks with these in their name; `bench lookups`: lookups alone; `bench
//! index`: the event index alone.
//!
//! `bench one WHO SHAPE BYTES` is for itself: one reading of a hostile block in a process of its
//! own, so that its memory can be told.

mod blobs;
mod hostile;
mod index;
mod lookups;
mod measure;
mod writer;

use std::process::{Command, ExitCode};
use std::time::Instant;

use hostile::SHAPES;
use measure::Lent;

fn main() -> ExitCode {
    let arguments: Vec<String> = std::env::args().skip(1).collect();
    let words: Vec<&str> = arguments.iter().map(String::as_str).collect();
    match words[..] {
        [] => {
            let met = ordinary("");
            sharing();
            lookups::ordinary();
            lookups::hostile_lists();
            let index = indexes();
            status(verdict(met) && index)
        }
        ["lookups"] => {
            lookups::ordinary();
            lookups::hostile_lists();
            ExitCode::SUCCESS
        }
        ["index"] => status(indexes()),
        ["one", who, shape, bytes] => {
            one(
                who,
                shape.parse().expect("a number"),
                bytes.parse().expect("a number"),
            );
            ExitCode::SUCCESS
        }
        [words] => status(verdict(ordinary(words))),
        _ => {
            eprintln!("usage: bench/run [WORDS | lookups | index]");
            ExitCode::from(2)
        }
    }
}

/// Ordinary blocks with some words in their name: whole ones, then parts alone. Gives the whole
/// ones of 100 KiB or more that are not read twice as fast.
fn ordinary(words: &str) -> Vec<&'static str> {
    let mut lent = Lent::new();
    let mut slow = Vec::new();
    for (what, blobs) in [("Block", blobs::whole()), ("Alone", blobs::parts())] {
        println!(
            "| {what} | Bytes | Original, ns | Library, ns | Ratio | Original, ns/byte | Library, ns/byte | Needs, ns |"
        );
        println!("|---|--:|--:|--:|--:|--:|--:|--:|");
        for (name, blob) in blobs.into_iter().filter(|(name, _)| name.contains(words)) {
            assert!(measure::original(&blob), "the original refuses {name}");
            assert_eq!(lent.library(&blob), 0, "the library refuses {name}");
            assert_eq!(measure::needs(&blob), 0, "the needs of {name} are refused");
            assert!(measure::same_items(&blob), "other items in {name}");
            let [original, library, needs] = measure::readings(&blob, &mut lent);
            let (length, ratio) = (blob.len() as f64, original / library);
            println!(
                "| {name} | {} | {original:.0} | {library:.0} | {ratio:.1} | {:.3} | {:.3} | {needs:.0} |",
                blob.len(),
                original / length,
                library / length
            );
            if what == "Block" && blob.len() >= 100 << 10 && ratio < 2.0 {
                slow.push(name);
            }
        }
        println!();
    }
    slow
}

/// The event index; whether its bar is met.
fn indexes() -> bool {
    let slow = index::tables();
    let verdict = match slow.is_empty() {
        true => "is met".to_string(),
        false => format!("is not met by: {}", slow.join("; ")),
    };
    println!("The bar of the index, 1.5 times as long as the plain loop at most, {verdict}.");
    slow.is_empty()
}

/// Whether the bar is met: each whole block of 100 KiB or more is read at least twice as fast.
fn verdict(slow: Vec<&str>) -> bool {
    if slow.is_empty() {
        println!("The bar is met: 2 times as fast on each block from 100 KiB on.");
    } else {
        println!(
            "The bar, 2 times as fast from 100 KiB on, is not met by: {}.",
            slow.join("; ")
        );
    }
    slow.is_empty()
}

fn status(met: bool) -> ExitCode {
    if met {
        ExitCode::SUCCESS
    } else {
        ExitCode::FAILURE
    }
}

/// Blocks that share.
fn sharing() {
    println!(
        "| Shared | Bytes | Met | Original, ms | Library, ms | Ratio | Original, MiB | Library, MiB | Met at worst |"
    );
    println!("|---|--:|--:|--:|--:|--:|--:|--:|--:|");
    for (number, shape) in SHAPES.iter().enumerate() {
        for bytes in [64 << 10, 1 << 20] {
            let (block, met, whole) = shape.block(bytes);
            let [original, library] = ["original", "library"].map(|who| ask(who, number, bytes));
            println!(
                "| {} | {} | {met} | {:.1} | {:.3} | {:.1} | {} | {} | {whole} |",
                shape.name,
                block.len(),
                original.0 / 1e6,
                library.0 / 1e6,
                original.0 / library.0,
                original.1 >> 10,
                library.1 >> 10,
            );
        }
    }
    println!();
    for shape in &SHAPES {
        println!("- {}: {}", shape.name, shape.product);
    }
    println!();
}

/// Has another process read a hostile block: nanoseconds, and kibibytes that it took for it.
fn ask(who: &str, shape: usize, bytes: usize) -> (f64, u64) {
    let program = std::env::current_exe().expect("this program's path");
    let output = Command::new(program)
        .args(["one", who, &shape.to_string(), &bytes.to_string()])
        .output()
        .expect("this program can be started");
    let said = String::from_utf8_lossy(&output.stdout);
    let mut numbers = said.split_whitespace().map(|number| number.parse().ok());
    match (numbers.next(), numbers.next()) {
        (Some(Some(time)), Some(Some(memory))) => (time, memory as u64),
        _ => panic!("{who} failed on {}: {}", SHAPES[shape].name, output.status),
    }
}

/// Reads a hostile block once or, if that is quick, some times more; prints the least time and the
/// memory that was taken for it.
fn one(who: &str, shape: usize, bytes: usize) {
    let (block, _, _) = SHAPES[shape].block(bytes);
    let mut lent = Lent::new();
    let before = measure::peak();
    let mut least = f64::INFINITY;
    let start = Instant::now();
    while least.is_infinite() || start.elapsed().as_millis() < 500 {
        let began = Instant::now();
        match who {
            "original" => {
                measure::original(&block);
            }
            _ => {
                lent.library(&block);
            }
        }
        least = least.min(began.elapsed().as_nanos() as f64);
    }
    println!("{least} {}", measure::peak() - before);
}
