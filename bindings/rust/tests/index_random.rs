//! Random byte strings and random lists, by the hundred thousand: the library answers to each what
//! a second reading of the request does.

mod lent;
#[allow(dead_code)]
#[path = "../../../oracle/generator/rng.rs"]
mod rng;
mod second;

use std::collections::BTreeMap;

use ducatfeather::{Index, Kind, List, raw};

use lent::{Lent, NOT_TOUCHED};
use rng::Rng;
use second::{ENTRY, Held, decode, encode, form, found, numbers, words};

/// How many byte strings of each sort, and how many lists.
const EACH: u64 = 100_000;
const LISTS: u64 = 20_000;

/// How often each code was answered.
type Tally = BTreeMap<u64, u32>;

/// Room for so much: enough, one too little, or any.
fn room(rng: &mut Rng, needed: usize) -> usize {
    match rng.below(5) {
        0 => needed.saturating_sub(1),
        1 => rng.below(needed + 1),
        2 => needed + rng.below(9),
        _ => needed,
    }
}

/// Reads bytes both ways, with room for all their words or for fewer.
fn read(rng: &mut Rng, bytes: &[u8], tally: &mut Tally) {
    let second = decode(bytes);
    let given = second.as_ref().map_or(vec![], words);
    let lent = room(rng, given.len());
    let mut numbers = vec![NOT_TOUCHED; lent];
    let mut expected = numbers.clone();
    let told = match &second {
        Err((code, place)) => [*code, *place, 0, 0, 0],
        Ok(_) if lent < given.len() => [9, 0, 15, lent as u64, 0],
        Ok(held) => {
            assert_eq!(encode(held), bytes, "no two byte strings read alike");
            expected[..given.len()].copy_from_slice(&given);
            [0, 0, 0, 0, given.len() as u64]
        }
    };
    let mut answer = [99; 5];
    let code = raw::ducat_index_read(bytes, &mut numbers, &mut answer);
    assert_eq!((answer, &numbers), (told, &expected), "{bytes:x?}");
    assert_eq!(u64::from(code), told[0]);
    match (Index::read(bytes), &second) {
        (Ok(index), Ok(held)) => assert_eq!(index.len(), held.entries.len()),
        (Err(refusal), Err((code, _))) => assert_eq!(u64::from(refusal.code()), *code),
        (index, _) => panic!("{index:?}: {second:?}"),
    }
    *tally.entry(told[0]).or_default() += 1;
}

/// Reads so many byte strings of a sort; each of these codes has to come often enough.
fn read_all(seed: u64, sort: impl Fn(&mut Rng) -> Vec<u8>, codes: &[u64]) {
    let mut tally = Tally::new();
    for number in 0..EACH {
        let mut rng = Rng::new(seed, number);
        let bytes = sort(&mut rng);
        read(&mut rng, &bytes, &mut tally);
    }
    for code in codes {
        let count = tally.get(code).copied().unwrap_or_default();
        assert!(count > 100, "code {code} came {count} times: {tally:?}");
    }
}

/// A number of any length up to so many bits.
fn number(rng: &mut Rng, bits: u32) -> u64 {
    let bits = rng.below(bits as usize + 1);
    u64::MAX.checked_shr(64 - bits as u32).unwrap_or(0) & rng.any()
}

fn held(rng: &mut Rng) -> Held {
    let counts = (0..rng.below(4)).map(|_| number(rng, 32) as u32).collect();
    let entries = 0..rng.below(4);
    Held {
        counts,
        entries: entries
            .map(|_| ENTRY.map(|bits| number(rng, bits)))
            .collect(),
    }
}

#[test]
fn any_bytes() {
    read_all(
        1,
        |rng| (0..rng.below(30)).map(|_| rng.byte()).collect(),
        &[15, 16, 17],
    );
    // The first one as it must be, and few others than make a difference.
    let bytes = [0, 0, 0, 1, 2, 3, 0x7f, 0x80, 0x81, 0xff];
    let codes = [0, 9, 15, 16, 18];
    read_all(
        2,
        |rng| {
            let behind = (0..rng.below(40)).map(|_| rng.pick(&bytes));
            [1].into_iter().chain(behind).collect()
        },
        &codes,
    );
}

#[test]
fn indexes_as_they_are_written() {
    read_all(3, |rng| encode(&held(rng)), &[0, 9]);
}

#[test]
fn indexes_with_some_bytes_changed() {
    read_all(
        4,
        |rng| {
            let mut bytes = encode(&held(rng));
            for _ in 0..rng.between(1, 2) {
                let at = rng.below(bytes.len());
                match rng.below(6) {
                    0 => bytes[at] = rng.byte(),
                    1 => bytes[at] ^= 0x80,
                    2 => bytes.insert(at, rng.byte()),
                    3 => bytes.push(rng.byte()),
                    4 if bytes.len() > 1 => drop(bytes.remove(at)),
                    _ => bytes.truncate(at + 1),
                }
            }
            bytes
        },
        &[0, 9, 15, 16, 17, 18],
    );
}

#[test]
fn numbers_of_any_length_behind_any_count() {
    read_all(
        5,
        |rng| {
            let mut numbers = vec![1, number(rng, 3)];
            numbers.extend((0..rng.below(40)).map(|_| {
                let bits = rng.pick(&[1, 2, 3, 7, 8, 8, 9, 16, 17, 32, 33, 64]);
                number(rng, bits)
            }));
            numbers.into_iter().flat_map(form).collect()
        },
        &[0, 9, 15, 16, 18],
    );
}

#[test]
fn numbers_in_odd_forms() {
    read_all(
        6,
        |rng| {
            let numbers = numbers(&held(rng));
            let odd = rng.below(numbers.len());
            let forms = numbers.into_iter().enumerate().map(|(place, number)| {
                let mut form = form(number);
                if place == odd {
                    *form.last_mut().unwrap() |= 0x80;
                    form.resize(rng.between(form.len(), 10), rng.pick(&[0x80, 0xff]));
                    form.push(rng.pick(&[0, 0, 1, 2, 0x7f, 0x80]));
                }
                form
            });
            forms.flatten().collect()
        },
        &[15, 16],
    );
}

/// Lists that mostly fit together: each provider has a range of the events, if there are any, and
/// one of the templates; some words are changed then.
fn lists(rng: &mut Rng) -> Lent {
    let mut lent = Lent::new(8);
    let providers = rng.between(0, 3) as u32;
    for _ in 0..providers {
        lent.put(List::Providers, &[(8, number(rng, 32) as u32)]);
    }
    let mut tables = Vec::new();
    let (mut events, mut templates) = (0, 0);
    let mut order: Vec<u32> = (0..providers).collect();
    rng.shuffle(&mut order);
    for &provider in &order {
        let own = rng.below(3) as u32;
        tables.push((provider, Kind::Evnt, events, own));
        events += own;
    }
    rng.shuffle(&mut order);
    for &provider in &order {
        let own = rng.below(3) as u32;
        tables.push((provider, Kind::Ttbl, templates, own));
        templates += own;
        for _ in 0..own {
            lent.template(provider, rng.below(4) as u32, 0);
        }
    }
    rng.shuffle(&mut tables);
    for (provider, kind, first, count) in tables {
        lent.table(provider, kind, first, count);
    }
    for _ in 0..events {
        let mut event = [16, 8, 8, 8, 8, 16, 32, 32, 32, 0].map(|bits| number(rng, bits) as u32);
        event[9] = rng.below(4) as u32;
        let event: Vec<_> = event.into_iter().enumerate().collect();
        lent.put(List::Events, &event);
    }
    if providers > 0 && rng.chance(30) {
        let kind = rng.pick(&[Kind::Evnt, Kind::Ttbl, Kind::Maps, Kind::Task]);
        let provider = rng.below(providers as usize) as u32;
        lent.table(provider, kind, rng.below(3) as u32, rng.below(2) as u32);
    }
    if rng.chance(40) {
        change(rng, &mut lent);
    }
    lent
}

/// Changes a word that decides something, or a count.
fn change(rng: &mut Rng, lent: &mut Lent) {
    let (list, places): (_, &[usize]) = match rng.below(9) {
        0..3 => (List::Tables, &[0, 1, 5, 6]),
        3..6 => (List::Events, &[0, 1, 2, 3, 4, 5, 9]),
        6..8 => (List::Templates, &[0, 1]),
        _ => {
            let list = rng.pick(&[List::Events, List::Tables, List::Maps]);
            let count = rng.below(10) as u32;
            lent.counts = lent.counts.with(list, count);
            return;
        }
    };
    let count = lent.counts.of(list) as usize;
    if count > 0 {
        let (number, place) = (rng.below(count) as u32, rng.pick(places));
        *lent.word(list, number, place) = match rng.below(3) {
            0 => rng.below(10) as u32,
            1 => rng.pick(&[255, 256, 65_535, 65_536]),
            _ => rng.word(),
        };
    }
}

#[test]
fn random_lists() {
    let mut tally = Tally::new();
    for number in 0..LISTS {
        let mut rng = Rng::new(7, number);
        let lent = lists(&mut rng);
        let fitting = List::all().all(|list| lent.counts.of(list) <= lent.capacities.of(list));
        let held = fitting.then(|| found(|list| lent.list(list))).flatten();
        let written = held.as_ref().map_or(vec![], encode);
        let mut bytes = vec![0x5a; room(&mut rng, written.len())];
        let mut expected = bytes.clone();
        let told = match held {
            None => [10, 0, 0, 0, 0],
            Some(_) if bytes.len() < written.len() => [9, 0, 15, bytes.len() as u64, 0],
            Some(_) => {
                expected[..written.len()].copy_from_slice(&written);
                [0, 0, 0, 0, written.len() as u64]
            }
        };
        let mut answer = [99; 5];
        let (capacities, counts) = (lent.capacities.in_order(), lent.counts.in_order());
        raw::ducat_index_write(&lent.words, capacities, counts, &mut bytes, &mut answer);
        assert_eq!((answer, &bytes), (told, &expected), "list {number}");
        if told[0] == 0 {
            assert_eq!(decode(&bytes[..written.len()]).ok(), held);
        }
        *tally.entry(told[0]).or_default() += 1;
    }
    for code in [0, 9, 10] {
        assert!(tally[&code] > 1_000, "{tally:?}");
    }
}
