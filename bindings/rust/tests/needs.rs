//! What a block needs, and that reading it takes that and no more.

mod blobs;

use blobs::{rich, rich_needs, shared, shared_items, t, t_needs, u, u_needs, with, z};
use ducatfeather::{Capacities, List, Refusal, needs, raw, read, read_into};

/// Blocks that are accepted.
fn accepted() -> [Vec<u8>; 5] {
    let drive = include_bytes!("../../../samples/drive.crim");
    [z(), t(), u(), rich(), drive.to_vec()]
}

#[test]
fn what_each_list_needs() {
    assert_eq!(needs(&z()), Ok(Capacities::each(0)));
    assert_eq!(needs(&t()), Ok(t_needs()));
    assert_eq!(needs(&u()), Ok(u_needs()));
    assert_eq!(needs(&rich()), Ok(rich_needs()));
    // What is lent behind the block doesn't matter.
    assert_eq!(needs(&[rich(), rich()].concat()), Ok(rich_needs()));
}

#[test]
fn exactly_that_is_enough() {
    for blob in accepted() {
        let needs = needs(&blob).unwrap();
        let mut words = vec![0; needs.words().unwrap()];
        let manifest = read_into(&blob, &needs, &mut words).unwrap();
        let allocated = read(&blob).unwrap();
        for list in List::all() {
            let entries = manifest.words(list);
            assert_eq!(entries.len(), list.words() * needs.of(list) as usize);
            assert_eq!(entries, allocated.words(list));
        }
        assert_eq!(manifest.version(), allocated.version());
        assert_eq!(manifest.block(), allocated.block());
    }
}

#[test]
fn anything_less_is_too_little() {
    for blob in accepted() {
        let needs = needs(&blob).unwrap();
        let mut words = vec![0; needs.words().unwrap()];
        if let Some((_, fewer)) = words.split_first_mut() {
            let refusal = read_into(&blob, &needs, fewer).unwrap_err();
            assert_eq!(refusal, Refusal::BadLending);
        }
        for list in List::all().filter(|&list| needs.of(list) > 0) {
            let less = needs.with(list, needs.of(list) - 1);
            let refusal = read_into(&blob, &less, &mut words).unwrap_err();
            assert_eq!(too_small(refusal), (list, needs.of(list) as u64 - 1));
        }
    }
}

/// What a refusal with code 9 names.
#[track_caller]
fn too_small(refusal: Refusal) -> (List, u64) {
    match refusal {
        Refusal::ListTooSmall { list, capacity, .. } => (list, capacity),
        _ => panic!("{refusal:?}"),
    }
}

/// What so many providers need that share one WEVT with so many templates, as far as it is told.
fn shared_needs(providers: u32, templates: u32) -> Capacities {
    let each = providers.min(65_537);
    Capacities::each(0)
        .with(List::Providers, each)
        .with(List::Descriptors, each)
        .with(List::Tables, each)
        .with(List::Templates, (providers * templates).min(65_537))
}

#[test]
fn as_much_as_there_can_be_room_for() {
    for (providers, templates) in [(65_536, 1), (1, 65_536), (256, 256)] {
        let blob = shared(providers, templates);
        assert_eq!(needs(&blob), Ok(shared_needs(providers, templates)));
        assert_eq!(read(&blob).unwrap().templates().len(), 65_536);
    }
}

#[test]
fn more_than_there_can_be_room_for() {
    // The lowest of the lists is named.
    for (providers, templates, list) in [
        (65_537, 0, List::Providers),
        (65_537, 1, List::Providers),
        (131_073, 2, List::Providers),
        (1, 65_537, List::Templates),
        (257, 256, List::Templates),
        (1_000, 2_000, List::Templates),
    ] {
        let blob = shared(providers, templates);
        let needs = needs(&blob).unwrap();
        assert_eq!(needs, shared_needs(providers, templates));
        assert_eq!(needs.of(list), 65_537);
        assert_eq!(needs.words(), None);
        assert_eq!(too_small(read(&blob).unwrap_err()), (list, 65_536));
    }
}

#[test]
fn many_items() {
    for (providers, items) in [(1, 65_536), (256, 256)] {
        let blob = shared_items(providers, items);
        let expected = shared_needs(providers, 1).with(List::Items, 65_536);
        assert_eq!(needs(&blob), Ok(expected));
        let manifest = read(&blob).unwrap();
        assert_eq!(manifest.items().len(), 65_536);
        let last = manifest.templates().last().unwrap();
        assert_eq!(last.items().len(), items as usize);
        assert!(last.items().all(|item| item.template == providers - 1));
    }
    for (providers, items) in [(1, 65_537), (257, 256), (1_000, 2_000)] {
        let blob = shared_items(providers, items);
        let expected = shared_needs(providers, 1).with(List::Items, 65_537);
        assert_eq!(needs(&blob), Ok(expected));
        let refusal = read(&blob).unwrap_err();
        assert_eq!(too_small(refusal), (List::Items, 65_536));
    }
}

#[test]
fn too_many_bytes() {
    let mut long = z();
    long.resize(16_777_216, 1);
    assert_eq!(needs(&long), Ok(Capacities::each(0)));
    assert!(read(&long).is_ok());
    long.push(1);
    assert_eq!(needs(&long), Err(Refusal::TooLong));
    assert_eq!(read(&long).unwrap_err(), Refusal::TooLong);
}

/// Each word of a block in turn, with each of some values: all codes from 1 to 6 come.
#[test]
fn refusals_are_those_of_a_reading() {
    let roomy = Capacities::each(256);
    let mut words = vec![0; roomy.words().unwrap()];
    let mut codes = [0; 10];
    let rich = rich();
    for place in 0..rich.len() - 3 {
        for value in [0, 1, 17, 0xdc00_0000, u32::MAX] {
            let blob = with(&rich, place, value);
            let reading = read_into(&blob, &roomy, &mut words).map(|manifest| {
                List::all().fold(Capacities::each(0), |counts, list| {
                    counts.with(list, (manifest.words(list).len() / list.words()) as u32)
                })
            });
            codes[reading.map_or_else(|refusal| refusal.code() as usize, |_| 0)] += 1;
            assert_eq!(needs(&blob), reading, "{value} at {place}");
            assert_eq!(read(&blob).err(), reading.err());
        }
    }
    assert!(codes[..=6].iter().all(|&count| count > 0), "{codes:?}");
    assert_eq!(codes[7..], [0; 3]);
}

#[test]
fn the_numbers_of_the_c_call() {
    let ask = |blob: &[u8]| {
        let mut answer = [9; raw::NUMBERS];
        let code = raw::ducat_needs(blob, &mut answer);
        assert_eq!(u64::from(code), answer[0]);
        let counts = answer[5..].iter().map(|&count| count as u32);
        (
            [answer[0], answer[1], answer[2], answer[3], answer[4]],
            counts.collect::<Vec<_>>(),
        )
    };
    let none = Capacities::each(0).in_order().to_vec();
    // CRIM.size and the versions, as a reading has them.
    let size = rich().len() as u64;
    let needed = rich_needs().in_order().to_vec();
    assert_eq!(ask(&rich()), ([0, 0, 0, size, 0x2_0001], needed));
    assert_eq!(ask(&z()), ([0, 0, 0, 16, 0], none.clone()));
    // A refusal has no counts.
    assert_eq!(
        ask(&with(&t(), 68, 51)),
        ([1, 80, 76, 40, 39], none.clone())
    );
    assert_eq!(ask(&vec![0; 16_777_217]), ([7, 0, 0, 0, 0], none));
}

#[test]
fn lengths_of_the_c_call() {
    let long = vec![0; 16_777_217];
    for length in [0, 1, raw::NUMBERS - 1, raw::NUMBERS + 1] {
        let mut answer = [9; raw::NUMBERS + 1];
        // 8 comes before whatever is wrong with the bytes, but for 7.
        for (blob, code) in [(&t()[..], 8), (&[], 8), (&long, 7)] {
            assert_eq!(raw::ducat_needs(blob, &mut answer[..length]), code);
            assert_eq!(answer, [9; raw::NUMBERS + 1], "it is not written");
        }
    }
}
