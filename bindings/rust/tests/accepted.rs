//! What accepted blocks hold.

mod blobs;

use blobs::{rich, rich_needs, t, t_needs, with, z};
use ducatfeather::{
    Capacities, Definition, Descriptor, Event, Guid, Kind, List, Manifest, MapEntry, MapKind,
    Signature, read, read_into,
};

fn counts(manifest: &Manifest) -> Capacities {
    let lengths = [
        (List::Providers, manifest.providers().len()),
        (List::Descriptors, manifest.descriptors().len()),
        (List::Unknown2, manifest.unknown2().len()),
        (List::Tables, manifest.tables().len()),
        (List::Definitions, manifest.definitions().len()),
        (List::Events, manifest.events().len()),
        (List::Maps, manifest.maps().len()),
        (List::MapEntries, manifest.map_entries().len()),
        (List::Templates, manifest.templates().len()),
        (List::UnknownElements, manifest.unknown_elements().len()),
        (List::Items, manifest.items().len()),
    ];
    // A list that is forgotten above has a count that no block has.
    let none = Capacities::each(u32::MAX);
    lengths.iter().fold(none, |counts, &(list, length)| {
        counts.with(list, length as u32)
    })
}

#[test]
fn a_block_without_providers() {
    let stray = [z(), vec![1, 2, 3, 4, 5]].concat();
    for blob in [z(), stray] {
        let manifest = read(&blob).unwrap();
        assert_eq!(counts(&manifest), Capacities::each(0));
        assert_eq!(manifest.block(), z());
        assert_eq!(manifest.version(), (0, 0));
        assert!(manifest.events().next().is_none());
    }
}

#[test]
fn a_block_with_one_template() {
    let blob = t();
    let manifest = read(&blob).unwrap();
    assert_eq!(counts(&manifest), t_needs());
    let template = manifest.templates().next().unwrap();
    let at = (template.provider, template.offset, template.size);
    assert_eq!(at, (0, 76, 40));
    assert_eq!(
        (template.binxml.start, template.binxml.bytes),
        (116, &[][..])
    );
    let entry = [0, 76, 40, 0, 0, 0, 0, 0, 0, 0, 0, 116, 0];
    assert_eq!(manifest.words(List::Templates), entry);
    let table = manifest.tables().next().unwrap();
    assert_eq!((table.kind, table.entries), (Kind::Ttbl, 0..1));
}

#[test]
fn only_the_needed_entries_are_written() {
    let blob = t();
    let capacities = Capacities::each(3);
    let areas = capacities.words().unwrap();
    let mut words = vec![7; areas + 5];
    let mut expected = words.clone();
    let manifest = read_into(&blob, &capacities, &mut words).unwrap();
    let mut start = 0;
    for list in List::all() {
        let entries = manifest.words(list);
        expected[start..start + entries.len()].copy_from_slice(entries);
        start += 3 * list.words();
    }
    assert_eq!(start, areas);
    assert_eq!(words, expected);
}

#[test]
fn every_list() {
    let blob = rich();
    let manifest = read(&blob).unwrap();
    assert_eq!(counts(&manifest), rich_needs());
    assert_eq!(manifest.version(), (1, 2));

    let provider = manifest.providers().next().unwrap();
    assert_eq!(provider.guid, Guid(std::array::from_fn(|i| i as u8 + 1)));
    assert_eq!((provider.offset, provider.size), (36, 68));
    assert_eq!(provider.message, None);
    assert_eq!(provider.descriptor_count, 6);
    assert_eq!(provider.unknown2_count, 2);
    let guid = "04030201-0605-0807-090A-0B0C0D0E0F10";
    assert_eq!(provider.guid.to_string(), guid);

    let signatures: Vec<String> = manifest
        .descriptors()
        .map(|descriptor| descriptor.signature.to_string())
        .collect();
    assert_eq!(signatures, ["CHAN", "EVNT", "KEYW", "MAPS", "TTBL", "What"]);
    assert_eq!(manifest.descriptors().nth(2).unwrap().unknown, 202);
    assert_eq!(manifest.unknown2().collect::<Vec<_>>(), [700, 701]);

    let kinds: Vec<Kind> = manifest.tables().map(|table| table.kind).collect();
    assert_eq!(
        kinds,
        [Kind::Chan, Kind::Evnt, Kind::Keyw, Kind::Maps, Kind::Ttbl]
    );
    let events = manifest.tables().nth(1).unwrap();
    assert_eq!((events.extra, events.trailing.bytes), (77, &[1, 2, 3][..]));

    let event: Event = manifest.events().next().unwrap();
    assert_eq!((event.identifier, event.version), (1, 2));
    assert_eq!((event.channel, event.level), (3, 4));
    assert_eq!((event.opcode, event.task), (5, 7));
    assert_eq!(event.keywords, 9 << 32 | 8);
    assert_eq!(event.message, u32::MAX);
    assert_eq!(
        (event.template_offset, event.opcode_offset),
        (None, Some(11))
    );
    assert_eq!((event.level_offset, event.task_offset), (None, Some(13)));
    assert_eq!((event.unknown_count, event.unknown_offset), (14, 15));
    assert_eq!(event.flags, 16);

    let template = manifest.templates().next().unwrap();
    assert_eq!(template.event_type, 3);
    assert_eq!(template.guid, Guid(std::array::from_fn(|i| i as u8 + 17)));
    assert_eq!(template.binxml.bytes, [0xf, 0x1]);
    let counts = (template.item_descriptor_count, template.item_name_count);
    assert_eq!(
        (counts, template.items_offset),
        ((1, 1), template.offset + 42)
    );

    let unknown = manifest.unknown_elements().next().unwrap();
    assert_eq!(unknown.signature, Signature(*b"What"));
    assert_eq!(unknown.data.bytes, b"What\x09\0\0\0\x21");

    let item = manifest.items().next().unwrap();
    assert_eq!((item.template, item.unknown1), (0, 50));
    assert_eq!((item.input_type, item.output_type), (51, 52));
    assert_eq!((item.unknown3, item.unknown4), (53, 54));
    assert_eq!((item.count, item.length), (55, 56));
    assert_eq!(item.name_offset, template.offset + 62);
    assert_eq!(item.name.unwrap(), "MΣ");
}

#[test]
fn names_are_text() {
    let blob = rich();
    let manifest = read(&blob).unwrap();
    let definitions: Vec<Definition> = manifest.definitions().collect();
    let name = definitions[0].name.unwrap();
    assert_eq!(name, "Größe 𝄞");
    assert_eq!(name.to_string(), "Größe 𝄞");
    assert_eq!(name.units().count(), 8);
    assert_eq!(definitions[0].name_offset + 4, name.part.start);
    assert_eq!(
        (definitions[0].message, definitions[0].unknown),
        (Some(1000), 5)
    );
    assert_eq!((definitions[1].name, definitions[1].message), (None, None));
    assert_eq!(definitions[2].identifier, 2 << 32 | 1);

    // A name without units is a name all the same.
    let empty = with(&blob, definitions[0].name_offset as usize, 4);
    let manifest = read(&empty).unwrap();
    assert_eq!(manifest.definitions().next().unwrap().name.unwrap(), "");
}

#[test]
fn maps_and_their_entries() {
    let blob = rich();
    let manifest = read(&blob).unwrap();
    let value = manifest.maps().next().unwrap();
    assert_eq!(
        (value.kind, value.size, value.data.bytes),
        (MapKind::Vmap, 34, &[8, 9][..])
    );
    assert_eq!(value.name.unwrap(), "Größe 𝄞");
    let entries: Vec<MapEntry> = manifest.map_entries().part(value.entries).collect();
    let pairs: Vec<_> = entries.iter().map(|e| (e.identifier, e.message)).collect();
    assert_eq!(pairs, [(1, Some(100)), (2, None)]);

    let bitmap = manifest.maps().nth(1).unwrap();
    assert_eq!(
        (bitmap.kind, bitmap.size, bitmap.name),
        (MapKind::Bmap, 0, None)
    );
    assert_eq!(
        (bitmap.entries, bitmap.data.bytes),
        (0..0, b"BMAP".as_slice())
    );
}

#[test]
fn iterators_know_where_they_end() {
    let blob = rich();
    let manifest = read(&blob).unwrap();
    let mut descriptors = manifest.descriptors();
    let second: Descriptor = descriptors.get(1).unwrap();
    assert_eq!(second.signature, Signature(*b"EVNT"));
    assert_eq!(descriptors.len(), 6);
    assert_eq!(descriptors.nth(4).unwrap().signature, Signature(*b"TTBL"));
    assert_eq!(descriptors.size_hint(), (1, Some(1)));
    assert!(descriptors.next().is_some());
    assert!(descriptors.next().is_none() && descriptors.next().is_none());
    assert!(manifest.descriptors().get(6).is_none());
    assert!(manifest.descriptors().nth(usize::MAX).is_none());
    assert_eq!(manifest.descriptors().part(4..99).len(), 2);
    let backwards = std::ops::Range { start: 5, end: 2 };
    assert_eq!(manifest.descriptors().part(backwards).len(), 0);

    // A table's entries stand in the list of its kind.
    let keywords = manifest.tables().nth(2).unwrap();
    let numbers: Vec<u64> = manifest
        .definitions()
        .part(keywords.entries)
        .map(|definition| definition.identifier)
        .collect();
    assert_eq!(numbers, [2 << 32 | 1]);
}
