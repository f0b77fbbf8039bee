//! oracle [--original]: blobs from standard input, the answers to standard output: those that the port
//! must give, or the original's own.

use std::io::{self, BufReader, BufWriter, Write};
use std::process::ExitCode;

use answers::Answer;

fn main() -> ExitCode {
    let mut arguments = std::env::args().skip(1);
    let answer = match (arguments.next().as_deref(), arguments.next()) {
        (None, _) => answers::answer,
        (Some("--original"), None) => answers::original,
        _ => {
            eprintln!("usage: oracle [--original]");
            return ExitCode::from(2);
        }
    };
    match run(answer) {
        Ok(()) => ExitCode::SUCCESS,
        Err(error) => {
            eprintln!("oracle: {error}");
            ExitCode::from(2)
        }
    }
}

fn run(answer: fn(&[u8]) -> Answer) -> io::Result<()> {
    let mut input = BufReader::new(io::stdin().lock());
    let mut output = BufWriter::new(io::stdout().lock());
    while let Some(blob) = frames::read(&mut input)? {
        write!(output, "{}", answer(&blob))?;
    }
    output.flush()
}
