//! Names: their text, whether a zero unit ended it, and what is shown of them.

mod blobs;

use blobs::{Block, rich, with};
use ducatfeather::{Definition, Guid, Kind, List, Map, MapKind, Name, read};

/// A name's units as they are written, without a size; none where there is no name. Then its text,
/// whether it ended, and what is shown of it.
struct Sort {
    units: Option<&'static str>,
    text: &'static str,
    ended: bool,
    shown: &'static str,
    debug: &'static str,
}

/// Every sort of name: one that ended, one that ran out, one of size 4, one of a zero unit alone,
/// and none.
const SORTS: [Sort; 5] = [
    Sort {
        units: Some("Größe\0"),
        text: "Größe",
        ended: true,
        shown: "Größe",
        debug: "\"Größe\"",
    },
    Sort {
        units: Some("Me\"tres"),
        text: "Me\"tres",
        ended: false,
        shown: "Me\"tres (ran out)",
        debug: "\"Me\\\"tres\" (ran out)",
    },
    Sort {
        units: Some(""),
        text: "",
        ended: false,
        shown: " (ran out)",
        debug: "\"\" (ran out)",
    },
    Sort {
        units: Some("\0"),
        text: "",
        ended: true,
        shown: "",
        debug: "\"\"",
    },
    Sort {
        units: None,
        text: "",
        ended: false,
        shown: "",
        debug: "",
    },
];

/// How many there are.
const COUNT: u32 = SORTS.len() as u32;

/// The kinds of definitions, in the order of their numbers: signature, the words of a record, and
/// which of them is the name's offset.
const DEFINITIONS: [(Kind, &[u8; 4], usize, usize); 5] = [
    (Kind::Chan, b"CHAN", 4, 1),
    (Kind::Keyw, b"KEYW", 4, 3),
    (Kind::Levl, b"LEVL", 3, 2),
    (Kind::Opco, b"OPCO", 3, 2),
    (Kind::Task, b"TASK", 7, 6),
];

/// The place of a name of each sort; 0 for none.
fn names(b: &mut Block) -> [u32; SORTS.len()] {
    SORTS.map(|sort| sort.units.map_or(0, |units| b.name(units)))
}

/// A block in which each kind of definition, the VMAPs and the items of one template have a name of
/// each sort. Behind the VMAPs are a BMAP and another map.
fn block() -> Vec<u8> {
    let mut b = Block(b"CRIM".to_vec());
    b.words(&[0, 0, 1, 0, 0, 0, 0, 0]);
    let own = names(&mut b);
    let mut elements = Vec::new();
    for (_, signature, words, place) in DEFINITIONS {
        elements.push(b.signature(signature));
        b.words(&[4 * (3 + COUNT * words as u32), COUNT]);
        for offset in own {
            let mut record = vec![7; words];
            record[place] = offset;
            b.words(&record);
        }
    }

    // The first map stands behind the places of all others.
    let maps = b.signature(b"MAPS");
    elements.push(maps);
    let first = maps + 16 + 4 * (COUNT + 1);
    b.words(&[0, COUNT + 2, 0]);
    b.words(&(1..COUNT + 2).map(|i| first + 16 * i).collect::<Vec<_>>());
    b.set(maps + 16 + 4 * COUNT, first + 16 * COUNT + 4);
    for offset in own {
        b.signature(b"VMAP");
        b.words(&[16, offset, 0]);
    }
    b.signature(b"BMAP");
    b.signature(b"What");
    b.set(maps + 4, b.here() - maps);

    // An item's name stands in its TEMP.
    let ttbl = b.signature(b"TTBL");
    elements.push(ttbl);
    b.words(&[0, 1]);
    let temp = b.signature(b"TEMP");
    b.words(&[0, COUNT, 0, temp + 40, 0, 0, 0, 0, 0]);
    b.words(&[0; 5 * SORTS.len()]);
    for (item, offset) in (0..).zip(names(&mut b)) {
        b.set(temp + 40 + 20 * item + 16, offset);
    }
    b.set(temp + 4, b.here() - temp);
    b.set(ttbl + 4, b.here() - ttbl);

    let wevt = b.signature(b"WEVT");
    b.words(&[0, 0, elements.len() as u32, 0]);
    for element in elements {
        b.words(&[element, 0]);
    }
    b.set(32, wevt);
    b.set(4, b.here());
    b.0
}

/// That these are the names of each sort, and that the last of their entries' words say the same.
#[track_caller]
fn all_sorts<'a>(names: impl Iterator<Item = Option<Name<'a>>>, words: &[u32], width: usize) {
    let names: Vec<_> = names.collect();
    let entries: Vec<_> = words.chunks_exact(width).collect();
    assert_eq!((names.len(), entries.len()), (SORTS.len(), SORTS.len()));
    for ((sort, name), entry) in SORTS.iter().zip(names).zip(entries) {
        assert_eq!(entry[width - 1], u32::from(sort.ended), "{:?}", sort.units);
        assert_eq!(name.is_some(), sort.units.is_some());
        if let Some(name) = name {
            assert_eq!(name.ended(), sort.ended, "{:?}", sort.units);
            assert_eq!(name, sort.text);
            assert_eq!(name.chars().collect::<String>(), sort.text);
            assert!(name.units().eq(sort.text.encode_utf16()));
            assert_eq!(name.to_string(), sort.shown);
            assert_eq!(format!("{name:?}"), sort.debug);
        }
    }
}

#[test]
fn of_definitions() {
    let blob = block();
    let manifest = read(&blob).unwrap();
    let width = List::Definitions.words();
    let words = manifest.words(List::Definitions);
    assert_eq!(words.len(), width * DEFINITIONS.len() * SORTS.len());
    for ((kind, ..), words) in DEFINITIONS.iter().zip(words.chunks(width * SORTS.len())) {
        let definitions = manifest.definitions();
        let own = definitions.filter(|definition: &Definition| definition.kind == *kind);
        all_sorts(own.map(|definition| definition.name), words, width);
    }
    // What stands before the last word is where it was.
    let task = manifest.definitions().last().unwrap();
    let mui = Guid(std::array::from_fn(|i| if i % 4 == 0 { 7 } else { 0 }));
    assert_eq!((task.identifier, task.mui), (7, mui));
}

#[test]
fn of_maps() {
    let blob = block();
    let manifest = read(&blob).unwrap();
    let width = List::Maps.words();
    let (words, others) = manifest.words(List::Maps).split_at(width * SORTS.len());
    let value_maps = manifest.maps().take(SORTS.len());
    all_sorts(value_maps.map(|map| map.name), words, width);
    // A BMAP and another map have no name to end.
    let without: Vec<Map> = manifest.maps().skip(SORTS.len()).collect();
    let kinds: Vec<_> = without.iter().map(|map| (map.kind, map.name)).collect();
    assert_eq!(kinds, [(MapKind::Bmap, None), (MapKind::Other, None)]);
    let last: Vec<_> = others.chunks(width).map(|entry| entry[width - 1]).collect();
    assert_eq!(last, [0, 0]);
}

#[test]
fn of_items() {
    let blob = block();
    let manifest = read(&blob).unwrap();
    let template = manifest.templates().next().unwrap();
    let (words, width) = (manifest.words(List::Items), List::Items.words());
    all_sorts(manifest.items().map(|item| item.name), words, width);
    all_sorts(template.items().map(|item| item.name), words, width);
    // The same out of the block itself.
    all_sorts(manifest.items().map(|item| item.name(&blob)), words, width);
}

/// The same text in the same place, with its zero unit and without.
#[test]
fn ended_or_not_they_are_equal_as_text_alone() {
    let blob = rich();
    let manifest = read(&blob).unwrap();
    let ended = manifest.definitions().next().unwrap();
    let size = 4 + 2 * ended.name.unwrap().units().count() as u32;
    let shorter = with(&blob, ended.name_offset as usize, size);
    let manifest = read(&shorter).unwrap();
    let ran_out = manifest.definitions().next().unwrap();

    let [one, other] = [ended, ran_out].map(|definition| definition.name.unwrap());
    assert_eq!((one.ended(), other.ended()), (true, false));
    assert_eq!(one.part, other.part);
    assert!(one == "Größe 𝄞" && other == "Größe 𝄞");
    assert!(other != "Größe 𝄞 (ran out)");
    assert_ne!(one, other);
    assert_ne!(ended, ran_out);
}

#[test]
fn those_of_the_sample_that_ran_out() {
    let blob = include_bytes!("../../../samples/drive.crim");
    let manifest = read(blob).unwrap();
    let definitions = manifest.definitions().map(|definition| definition.name);
    let maps = manifest.maps().map(|map| map.name);
    let items = manifest.items().map(|item| item.name);
    let names: Vec<Name> = definitions.chain(maps).chain(items).flatten().collect();
    let ran_out: Vec<_> = names.iter().filter(|name| !name.ended()).collect();
    assert_eq!(ran_out, ["RopeInspected", "Inspector"]);
    assert!(names.len() > ran_out.len());
}
