//! pairs COUNT SEED: which pairs of code and field the generator's blobs reach, held against the
//! pairs that docs/FIELDS.md promises; in which of the cases of docs/DIFFERENCES.md the original
//! answers them otherwise; and how many names ended and ran out in each kind of entry.

use std::collections::BTreeMap;
use std::process::ExitCode;

use answers::differences;
use answers::names::Names;
use answers::tally::Tally;
use answers::{fields, fields::Pair};
use generator::Rng;

fn main() -> ExitCode {
    let arguments: Vec<Option<u64>> = std::env::args().skip(1).map(|a| a.parse().ok()).collect();
    let &[Some(count), Some(seed)] = arguments.as_slice() else {
        eprintln!("usage: oracle/pairs [COUNT] [SEED]");
        return ExitCode::from(2);
    };

    let mut reached: BTreeMap<Pair, u64> = BTreeMap::new();
    let mut tally = Tally::default();
    let mut names = Names::default();
    for index in 0..count {
        let blob = generator::blob(&mut Rng::new(seed, index), generator::DAMAGED);
        let compared = std::panic::catch_unwind(|| differences::compare(&blob));
        let fault = match compared {
            Ok(Ok(compared)) => {
                let answer = &compared.answer;
                *reached.entry((answer.code, answer.field)).or_default() += 1;
                tally.count(&compared);
                names.count(&blob, answer);
                continue;
            }
            Ok(Err(difference)) => difference,
            Err(_) => "no answer".into(),
        };
        eprintln!("blob {index} of seed {seed}: {fault}\n{}", hex(&blob));
        return ExitCode::FAILURE;
    }

    let accepted = reached.get(&(0, 0)).copied().unwrap_or(0);
    println!("blobs {count} seed {seed}");
    println!("accepted {accepted} refused {}", count - accepted);
    for (&(code, field), times) in &reached {
        println!("code {code} field {field}: {times}{}", text(field));
    }
    print!("{tally}{names}");

    let promised = fields::promised();
    let unreached: Vec<Pair> = promised
        .iter()
        .filter(|pair| !reached.contains_key(pair))
        .copied()
        .collect();
    let unpromised: Vec<Pair> = reached
        .into_keys()
        .filter(|pair| !promised.contains(pair))
        .collect();
    let cases = tally.missing().into_iter().map(|case| case.to_string());
    let uncounted: Vec<String> = cases.chain(names.missing()).collect();
    if 2 * accepted < count {
        println!("under half of the blobs are accepted");
    }
    for what in &uncounted {
        println!("never came: {what}");
    }
    if !unpromised.is_empty() {
        println!("not promised:{}", listed(&unpromised));
    }
    if unreached.is_empty() {
        println!("missing: nothing");
    } else {
        println!("missing:{}", listed(&unreached));
    }
    let all = unreached.is_empty() && unpromised.is_empty() && uncounted.is_empty();
    if all && 2 * accepted >= count {
        ExitCode::SUCCESS
    } else {
        ExitCode::FAILURE
    }
}

/// The text of a field, for the reader of the list.
fn text(number: u32) -> String {
    let field = fields::all().iter().find(|field| field.number == number);
    field.map_or(String::new(), |field| format!(" ({})", field.text))
}

fn listed(pairs: &[Pair]) -> String {
    pairs
        .iter()
        .map(|(code, field)| format!(" {code}/{field}"))
        .collect()
}

fn hex(bytes: &[u8]) -> String {
    bytes.iter().map(|byte| format!("{byte:02x}")).collect()
}
