//! Indexes of generated blocks: written, and read back.

mod second;

// The blocks that the library is compared with the original on. Their modules name one another from
// the crate's root, so they stand there.
#[allow(dead_code)]
#[path = "../../../oracle/generator/draft.rs"]
mod draft;
#[allow(dead_code)]
#[path = "../../../oracle/generator/elements.rs"]
mod elements;
#[allow(dead_code)]
#[path = "../../../oracle/generator/items.rs"]
mod items;
#[path = "../../../oracle/generator/joins.rs"]
mod joins;
#[allow(dead_code)]
#[path = "../../../oracle/generator/maps.rs"]
mod maps;
#[allow(dead_code)]
#[path = "../../../oracle/generator/names.rs"]
mod names;
#[path = "../../../oracle/generator/rng.rs"]
mod rng;
#[path = "../../../oracle/generator/shape.rs"]
mod shape;

use ducatfeather::{Capacities, Index, Manifest, Refusal, read, read_into};

use rng::Rng;
use second::{Held, decode, encode, found};

/// What an index holds, as numbers.
fn held(index: &Index) -> Held {
    let entry = |e: &ducatfeather::IndexEntry| {
        let [id, task] = [e.event_id, e.task].map(u64::from);
        let [version, channel, level, opcode] =
            [e.version, e.channel, e.level, e.opcode].map(u64::from);
        let [provider, offset] = [e.provider, e.template_offset].map(u64::from);
        [
            provider, id, version, channel, level, opcode, task, e.keywords, offset,
        ]
    };
    Held {
        counts: index.unknown2_counts().to_vec(),
        entries: index.into_iter().map(entry).collect(),
    }
}

/// Writes the index of what was read and reads it back; what it holds.
#[track_caller]
fn round_trip(manifest: &Manifest) -> Held {
    let bytes = manifest.write_index().unwrap();
    let expected = found(|list| manifest.words(list)).expect("a reading's lists fit together");
    assert_eq!(held(&Index::read(&bytes).unwrap()), expected);
    // What was read is written the same again.
    assert_eq!(encode(&expected), bytes);
    assert_eq!(decode(&bytes).unwrap(), expected);

    let mut room = vec![0x5a; bytes.len() + 1];
    let (last, exact) = room.split_last_mut().unwrap();
    assert_eq!(manifest.write_index_into(exact), Ok(bytes.len()));
    assert_eq!((&*exact, *last), (&bytes[..], 0x5a));
    let few = exact.len() - 1;
    exact.fill(0x5a);
    let refusal = manifest.write_index_into(&mut exact[..few]).unwrap_err();
    assert!(
        matches!(refusal, Refusal::IndexTooSmall { lent, .. } if lent == few as u64),
        "{refusal:?}"
    );
    assert!(room.iter().all(|&byte| byte == 0x5a));
    expected
}

/// The same of a block, whatever room its lists were read with.
#[track_caller]
fn of_block(block: &[u8]) -> Held {
    let manifest = read(block).unwrap();
    let expected = round_trip(&manifest);
    let capacities = Capacities::each(1_000);
    let mut words = vec![0x5a5a_5a5a; capacities.words().unwrap()];
    if let Ok(roomy) = read_into(block, &capacities, &mut words) {
        assert_eq!(round_trip(&roomy), expected);
    }
    // It has no more entries than there are events.
    assert!(expected.entries.len() <= manifest.events().len());
    expected
}

#[test]
fn blocks_to_join_events_in() {
    let (mut all, mut left_out) = (0, 0);
    for index in 0..1_000 {
        let block = joins::blob(&mut Rng::new(1, index));
        let entries = of_block(&block).entries.len();
        all += entries;
        left_out += read(&block).unwrap().events().len() - entries;
    }
    assert!(all > 2_000 && left_out > 1_000, "{all}, {left_out}");
}

#[test]
fn blocks_of_every_shape() {
    let (mut counts, mut entries) = (0, 0);
    for index in 0..1_000 {
        let mut draft = shape::draft(&mut Rng::new(2, index), 0);
        draft.close();
        let held = of_block(&draft.bytes);
        counts += held.counts.iter().filter(|&&count| count > 0).count();
        entries += held.entries.len();
    }
    assert!(counts > 200 && entries > 200, "{counts}, {entries}");
}

#[test]
fn large_blocks() {
    let mut most = 0;
    for index in 0..12 {
        let block = joins::large(&mut Rng::new(3, index));
        let manifest = read(&block).unwrap();
        let bytes = manifest.write_index().unwrap();
        let index = Index::read(&bytes).unwrap();
        assert_eq!(encode(&held(&index)), bytes);
        most = most.max(index.len());
    }
    assert!(most > 50_000, "{most}");
}

#[test]
fn the_sample() {
    let held = of_block(include_bytes!("../../../samples/drive.crim"));
    assert_eq!(held.counts, [0; 4]);
    let events: Vec<_> = held
        .entries
        .iter()
        .map(|entry| [entry[0], entry[1]])
        .collect();
    let expected = [[0, 100], [0, 101], [0, 110], [0, 111], [1, 200], [1, 210]];
    assert_eq!(events[..6], expected);
    assert_eq!(events[6..], [[3, 100], [3, 101], [3, 120]]);
}
