//! generate SEED COUNT [--damaged PERCENT] [--from INDEX] [--joins] [--large]: blobs to standard output.

use std::io::{self, BufWriter, Write};
use std::process::ExitCode;

use generator::{Rng, joins, large};

const USAGE: &str =
    "usage: generate SEED COUNT [--damaged PERCENT] [--from INDEX] [--joins] [--large]";

struct Arguments {
    seed: u64,
    count: u64,
    damaged: usize,
    from: u64,
    joins: bool,
    large: bool,
}

fn main() -> ExitCode {
    let Some(arguments) = arguments(std::env::args().skip(1)) else {
        eprintln!("{USAGE}");
        return ExitCode::from(2);
    };
    match run(&arguments) {
        Ok(()) => ExitCode::SUCCESS,
        Err(error) => {
            eprintln!("generate: {error}");
            ExitCode::FAILURE
        }
    }
}

fn arguments(mut given: impl Iterator<Item = String>) -> Option<Arguments> {
    let mut arguments = Arguments {
        seed: given.next()?.parse().ok()?,
        count: given.next()?.parse().ok()?,
        damaged: generator::DAMAGED,
        from: 0,
        joins: false,
        large: false,
    };
    while let Some(option) = given.next() {
        match option.as_str() {
            "--damaged" => arguments.damaged = given.next()?.parse().ok()?,
            "--from" => arguments.from = given.next()?.parse().ok()?,
            "--joins" => arguments.joins = true,
            "--large" => arguments.large = true,
            _ => return None,
        }
    }
    Some(arguments)
}

fn run(arguments: &Arguments) -> io::Result<()> {
    let mut output = BufWriter::new(io::stdout().lock());
    for index in arguments.from..arguments.from.saturating_add(arguments.count) {
        let mut rng = Rng::new(arguments.seed, index);
        let blob = match (arguments.joins, arguments.large) {
            (false, false) => generator::blob(&mut rng, arguments.damaged),
            (false, true) => large::blob(&mut rng),
            (true, false) => joins::blob(&mut rng),
            (true, true) => joins::large(&mut rng),
        };
        frames::write(&mut output, &blob)?;
    }
    output.flush()
}
