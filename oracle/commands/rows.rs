//! rows: blobs from standard input, a module of theorems to standard output: of
//! each blob the definition finds what the original answers.
//! `oracle/definition` has them checked.

use std::io::{self, BufReader, BufWriter, Write};
use std::process::ExitCode;

use answers::Answer;

/// The module's head, with all that the checker unfolds to compute the definition.
const HEAD: &str = include_str!("rows.txt");

/// A longer blob can take more steps than the checker allows for one theorem.
const LONGEST: usize = 4096;

fn main() -> ExitCode {
    match run() {
        Ok(()) => ExitCode::SUCCESS,
        Err(error) => {
            eprintln!("rows: {error}");
            ExitCode::from(2)
        }
    }
}

fn run() -> io::Result<()> {
    let mut input = BufReader::new(io::stdin().lock());
    let mut output = BufWriter::new(io::stdout().lock());
    write!(output, "{HEAD}")?;
    let (mut rows, mut left_out) = (0, 0);
    while let Some(blob) = frames::read(&mut input)? {
        if blob.len() > LONGEST {
            left_out += 1;
            continue;
        }
        write_row(&mut output, rows, &blob, &answers::answer(&blob))?;
        rows += 1;
    }
    eprintln!("{rows} blobs to compute; {left_out} of over {LONGEST} bytes left out");
    output.flush()
}

/// One theorem: what the definition finds of the blob is the answer.
fn write_row(to: &mut impl Write, number: usize, blob: &[u8], answer: &Answer) -> io::Result<()> {
    write!(to, "\nrow_{number} : found (")?;
    write_list(to, blob)?;
    write!(
        to,
        ") ≡ record {{ answer = record {{ code = {}; field = {}",
        answer.code, answer.field
    )?;
    write!(to, "; place = {}; first = {}", answer.place, answer.first)?;
    write!(to, "; second = {}; counts = ", answer.second)?;
    write_list(to, &answer.counts())?;
    write!(to, " }}; lists = ")?;
    if answer.code == 0 {
        for list in &answer.lists {
            write!(to, "(")?;
            write_list(to, list)?;
            write!(to, ") ∷ ")?;
        }
    }
    writeln!(to, "[] }}\nunfolding found\nrow_{number} = refl")
}

fn write_list<N: std::fmt::Display>(to: &mut impl Write, numbers: &[N]) -> io::Result<()> {
    for number in numbers {
        write!(to, "{number} ∷ ")?;
    }
    write!(to, "[]")
}
