//! Items: those of a block, those of a template, and the one with a name.

mod blobs;

use blobs::{Block, t, u, with};
use ducatfeather::{Capacities, Item, List, Manifest, Template, read, read_into};

/// A name with its zero unit or without; none where there is nothing. Each item of a template
/// has one.
type Names<'a> = &'a [Option<&'a str>];

/// A block with these providers, each with a TTBL of templates whose items have these names. An
/// item's unknown1 is its number in the block.
fn block(providers: &[&[Names]]) -> Vec<u8> {
    let mut b = Block(b"CRIM".to_vec());
    b.words(&[0, 0, providers.len() as u32]);
    b.words(&vec![0; 5 * providers.len()]);
    let mut number = 0;
    for (provider, templates) in (0..).zip(providers) {
        let wevt = b.signature(b"WEVT");
        b.set(16 + 20 * provider + 16, wevt);
        b.words(&[0, 0, 1, 0, wevt + 28, 0]);
        let ttbl = b.signature(b"TTBL");
        b.words(&[0, templates.len() as u32]);
        for names in *templates {
            temp(&mut b, names, number);
            number += names.len() as u32;
        }
        b.set(ttbl + 4, b.here() - ttbl);
    }
    b.set(4, b.here());
    b.0
}

/// A TEMP, whose items have numbers from one on.
fn temp(b: &mut Block, names: Names, number: u32) {
    let temp = b.signature(b"TEMP");
    let count = names.len() as u32;
    b.words(&[0, count, 0, temp + 40, 0, 0, 0, 0, 0]);
    for item in 0..count {
        b.words(&[number + item, 0, 0, 0, 0]);
    }
    for (item, name) in (0..).zip(names) {
        if let Some(name) = name {
            let offset = b.name(name);
            b.set(temp + 40 + 20 * item + 16, offset);
        }
    }
    b.set(temp + 4, b.here() - temp);
}

/// A block with one template.
fn one(names: Names) -> Vec<u8> {
    block(&[&[names]])
}

/// Two providers. The templates have 2, 0, 1, 0, 3 and 0 items.
fn several() -> Vec<u8> {
    let [a, b, c] = ["a\0", "b\0", "c\0"].map(Some);
    block(&[&[&[a, b], &[], &[c]], &[&[], &[c, b, a], &[]]])
}

fn numbers<'a>(items: impl Iterator<Item = Item<'a>>) -> Vec<u32> {
    items.map(|item| item.unknown1).collect()
}

/// The number of the item that has a name, in the one template of a block.
#[track_caller]
fn found(blob: &[u8], name: &str) -> Option<u32> {
    let manifest = read(blob).unwrap();
    let template = manifest.templates().next().unwrap();
    template.item_named(name).map(|item| item.unknown1)
}

#[test]
fn the_item_of_u() {
    let blob = u();
    let manifest = read(&blob).unwrap();
    assert_eq!(
        manifest.words(List::Items),
        [0, 0, 0, 0, 0, 0, 136, 140, 1, 1]
    );
    let template = manifest.templates().next().unwrap();
    let item = template.items().next().unwrap();
    assert_eq!(item.name.unwrap(), "A");
    assert_eq!((template.items().len(), manifest.items().len()), (1, 1));
    assert_eq!(template.item_named("A"), Some(item));
    assert_eq!(template.item_named("a"), None);
    assert_eq!(manifest.items().next(), Some(item));
}

#[test]
fn a_template_without_items() {
    let blob = t();
    let manifest = read(&blob).unwrap();
    let template = manifest.templates().next().unwrap();
    assert!(template.items().next().is_none());
    assert_eq!(template.item_named(""), None);
}

/// The numbers of the items of each template.
fn each(manifest: &Manifest) -> Vec<Vec<u32>> {
    let templates = manifest.templates();
    templates
        .map(|template| numbers(template.items()))
        .collect()
}

#[test]
fn each_template_has_its_own() {
    let blob = several();
    let expected = [&[0, 1][..], &[], &[2], &[], &[3, 4, 5], &[]];
    let manifest = read(&blob).unwrap();
    assert_eq!(numbers(manifest.items()), [0, 1, 2, 3, 4, 5]);
    let templates: Vec<u32> = manifest.items().map(|item| item.template).collect();
    assert_eq!(templates, [0, 0, 2, 4, 4, 4]);
    assert_eq!(each(&manifest), expected);

    // With more room than is needed.
    let mut words = vec![7; Capacities::each(9).words().unwrap()];
    let roomy = read_into(&blob, &Capacities::each(9), &mut words).unwrap();
    assert_eq!(each(&roomy), expected);
}

#[test]
fn however_the_template_is_reached() {
    let blob = several();
    let manifest = read(&blob).unwrap();
    let of = |template: Option<Template>| numbers(template.unwrap().items());
    assert_eq!(of(manifest.templates().get(4)), [3, 4, 5]);
    assert_eq!(of(manifest.templates().nth(2)), [2]);
    assert_eq!(of(manifest.templates().part(2..5).nth(2)), [3, 4, 5]);
    assert_eq!(of(manifest.templates().part(1..5).part(1..3).next()), [2]);
    assert_eq!(of(manifest.templates().skip(3).nth(1)), [3, 4, 5]);
    let table = manifest.tables().nth(1).unwrap();
    let mut second = manifest.templates().part(table.entries);
    assert_eq!(of(second.next()), []);
    assert_eq!(of(second.next()), [3, 4, 5]);
    // An item leads back to its template.
    let last = manifest.items().last().unwrap();
    let template = manifest.templates().get(last.template as usize).unwrap();
    assert_eq!(template.items().last(), Some(last));
}

#[test]
fn by_name() {
    let blob = one(&[Some("Car\0"), Some("Metres\0"), Some("Metre\0")]);
    assert_eq!(found(&blob, "Car"), Some(0));
    assert_eq!(found(&blob, "Metres"), Some(1));
    assert_eq!(found(&blob, "Metre"), Some(2));
    for none in [
        "", "metres", "METRES", "Metr", "Metress", "Metres\0", "Ca", "Tick",
    ] {
        assert_eq!(found(&blob, none), None, "{none:?}");
    }
    // Another template's name is none of this one's.
    let blob = several();
    let manifest = read(&blob).unwrap();
    let c = manifest
        .templates()
        .map(|template| template.item_named("c"));
    let numbers: Vec<Option<u32>> = c.map(|item| item.map(|item| item.unknown1)).collect();
    assert_eq!(numbers, [None, None, Some(2), None, Some(3), None]);
}

#[test]
fn the_first_of_several_with_one_name() {
    let [a, b] = ["Tick\0", "Metres\0"].map(Some);
    assert_eq!(found(&one(&[a, b, b, a]), "Metres"), Some(1));
    assert_eq!(found(&one(&[a, b, b, a]), "Tick"), Some(0));
}

#[test]
fn absent_and_empty_names() {
    let blob = one(&[None, Some("\0"), None, Some("Metres\0"), Some("")]);
    let manifest = read(&blob).unwrap();
    let names: Vec<Option<String>> = manifest
        .items()
        .map(|item| item.name.map(|name| name.chars().collect()))
        .collect();
    let texts = names.iter().map(Option::as_deref).collect::<Vec<_>>();
    assert_eq!(texts, [None, Some(""), None, Some("Metres"), Some("")]);
    assert_eq!(manifest.items().next().unwrap().name_offset, 0);
    // No name is not the empty name.
    assert_eq!(found(&blob, ""), Some(1));
    assert_eq!(found(&blob, "Metres"), Some(3));
    assert_eq!(found(&one(&[None, None]), ""), None);
}

#[test]
fn a_name_out_of_the_block_itself() {
    let blob = one(&[Some("Metres\0"), None, Some("Car")]);
    let names: Vec<_> = {
        let manifest = read(&blob).expect("accepted");
        let items = manifest.items();
        items
            .map(|item| (item.name, item.name(&blob)))
            .for_each(|(own, out)| assert_eq!(own, out));
        manifest.items().map(|item| item.name(&blob)).collect()
    };
    let texts: Vec<_> = names
        .iter()
        .map(|name| name.map(|n| n.to_string()))
        .collect();
    let [metres, car] = ["Metres", "Car (ran out)"].map(|text| Some(text.to_string()));
    assert_eq!(texts, [metres, None, car]);
    // Of bytes that end before it there is none.
    let manifest = read(&blob).expect("accepted");
    let item = manifest.items().next().expect("an item");
    let end = item.name.expect("a name").part.start as usize + 12;
    assert_eq!(
        item.name(&blob[..end]).map(|n| n.to_string()).as_deref(),
        Some("Metres")
    );
    assert_eq!(item.name(&blob[..end - 1]), None);
    assert_eq!(item.name(&[]), None);
}

#[test]
fn names_that_are_not_ascii() {
    let blob = one(&[
        Some("Länge\0"),
        Some("長さ\0"),
        Some("𝄞\0"),
        Some("Lange\0"),
    ]);
    for (number, name) in (0..).zip(["Länge", "長さ", "𝄞", "Lange"]) {
        assert_eq!(found(&blob, name), Some(number), "{name}");
    }
    // The same to the eye, in other units: a letter and a mark.
    assert_eq!(found(&blob, "La\u{308}nge"), None);
    // Half of what two units say.
    assert_eq!(found(&blob, "\u{fffd}"), None);
}

#[test]
fn names_without_a_zero_unit() {
    let blob = one(&[Some("Metres"), Some("Car\0s"), Some("Metre")]);
    assert_eq!(found(&blob, "Metres"), Some(0));
    // What stands behind a zero unit is no part of the name.
    assert_eq!(found(&blob, "Car"), Some(1));
    assert_eq!(found(&blob, "Car\0s"), None);
    assert_eq!(found(&blob, "Metre"), Some(2));
    // The mark that one is shown with is no part of it either.
    assert_eq!(found(&blob, "Metres (ran out)"), None);
    // The first of several, whether it ended or ran out.
    let [ended, unended] = ["Metres\0", "Metres"].map(Some);
    for (names, first) in [([ended, unended], true), ([unended, ended], false)] {
        let blob = one(&names);
        let manifest = read(&blob).unwrap();
        let template = manifest.templates().next().unwrap();
        let item = template.item_named("Metres").unwrap();
        assert_eq!(item.unknown1, 0);
        assert_eq!(item.name.unwrap().ended(), first);
    }
}

#[test]
fn templates_are_compared_and_shown_with_their_items() {
    let blob = several();
    let other = with(&blob, 16 + 40 + 28 + 12 + 40, 99); // the first item's unknown1
    let [first, again, changed] = [&blob, &blob, &other].map(|blob| read(blob).unwrap());
    assert_eq!(all(&first), all(&again));
    assert_ne!(all(&first)[0], all(&changed)[0]);
    assert_eq!(all(&first)[1..], all(&changed)[1..]);
    let shown = format!("{:?}", all(&first)[4]);
    assert!(shown.contains("unknown1: 5") && !shown.contains("unknown1: 2"));
}

fn all<'a>(manifest: &'a Manifest) -> Vec<Template<'a>> {
    manifest.templates().collect()
}
