//! What is special about a blob and its answer, so that a sample can have some of each.

use answers::Answer;
use answers::lists::{
    DEFINITIONS, DESCRIPTORS, EVENTS, ITEMS, MAP_ENTRIES, MAPS, PROVIDERS, ROWS, TABLES, TEMPLATES,
    UNKNOWN_ELEMENTS,
};
use answers::names::{self, Name};

/// A name of the trait and some numbers that tell it from others of that name.
pub type Trait = (&'static str, [u32; 4]);

pub fn traits(blob: &[u8], answer: &Answer) -> Vec<Trait> {
    let mut traits = if answer.code == 0 {
        accepted(blob, answer)
    } else {
        refused(blob, answer)
    };
    traits.sort();
    traits.dedup();
    traits
}

fn refused(blob: &[u8], answer: &Answer) -> Vec<Trait> {
    let Answer {
        code,
        field,
        first,
        second,
        ..
    } = *answer;
    let length = blob.len() as u32;
    // How the numbers lie to each other: what is missing, by how much an offset is past the end.
    let by = match code {
        1 => few(first - second),
        2 => first as u32,
        3 => few(first),
        5 => few(u64::from(answer.place.abs_diff(length))),
        _ => 0,
    };
    vec![
        ("pair", [code, field, 0, 0]),
        ("numbers", [code, field, by, u32::from(second == 0)]),
    ]
}

fn accepted(blob: &[u8], answer: &Answer) -> Vec<Trait> {
    let mut traits = vec![(
        "stray bytes",
        [u32::from(blob.len() as u64 > answer.first), 0, 0, 0],
    )];
    for (row, count) in ROWS.iter().zip(answer.counts()) {
        traits.push(("entries", [row.number, few(count as u64), 0, 0]));
    }
    for provider in answer.entries(PROVIDERS) {
        let absent = u32::from(provider[6] == u32::MAX);
        traits.push((
            "provider",
            [absent, few(provider[7].into()), few(provider[8].into()), 0],
        ));
    }
    traits.extend(descriptors(answer));
    for table in answer.entries(TABLES) {
        let sized = u32::from(table[3] != 0);
        traits.push(("table", [table[1], sized, few(table[6].into()), 0]));
        // Not the first provider's, and entries before its own.
        traits.push((
            "table's place",
            [table[1], few(table[0].into()), few(table[5].into()), 0],
        ));
        traits.push((
            "trailing",
            [few(table[8].into()), few(table[4].into()), 0, 0],
        ));
    }
    for definition in answer.entries(DEFINITIONS) {
        let absent = u32::from(definition[3] == u32::MAX);
        let name = named(blob, DEFINITIONS, definition);
        traits.push(("definition", [definition[0], absent, name, 0]));
        traits.push((
            "identifier",
            [
                definition[0],
                few(definition[1].into()),
                few(definition[2].into()),
                0,
            ],
        ));
    }
    for event in answer.entries(EVENTS) {
        for (place, &word) in (0..).zip(event) {
            traits.push(("event", [place, few(word.into()), 0, 0]));
        }
    }
    for map in answer.entries(MAPS) {
        let name = named(blob, MAPS, map);
        traits.push(("map", [map[0], few(map[8].into()), few(map[10].into()), 0]));
        traits.push(("map's place", [map[0], name, few(map[7].into()), 0]));
    }
    for entry in answer.entries(MAP_ENTRIES) {
        traits.push((
            "map entry",
            [few(entry[0].into()), few(entry[1].into()), 0, 0],
        ));
    }
    for template in answer.entries(TEMPLATES) {
        let items = match template[5].checked_sub(template[1]) {
            None => 0,
            Some(0..40) => 1,
            Some(from) if from == template[2] => 2,
            Some(_) => 3,
        };
        traits.push((
            "template",
            [
                items,
                few(template[3].into()),
                few(template[4].into()),
                few(template[12].into()),
            ],
        ));
        traits.push(("template's provider", [few(template[0].into()), 0, 0, 0]));
    }
    traits.extend(items(blob, answer));
    traits.extend(long_names(blob, answer));
    for unknown in answer.entries(UNKNOWN_ELEMENTS) {
        traits.push((
            "unknown",
            [few(unknown[0].into()), few(unknown[3].into()), 0, 0],
        ));
    }
    traits
}

/// Items with their names, where these stand, and whether two share one.
fn items(blob: &[u8], answer: &Answer) -> Vec<Trait> {
    let mut traits = Vec::new();
    let templates: Vec<&[u32]> = answer.entries(TEMPLATES).collect();
    let mut before: Option<&[u32]> = None;
    for item in answer.entries(ITEMS) {
        let template = templates[item[0] as usize];
        let name = named(blob, ITEMS, item);
        traits.push(("item", [few(item[0].into()), name, 0, 0]));
        let [first, end] = [template[5], template[5] + 20 * template[3]];
        let stands = match item[6] {
            0 => 0,
            name if name < template[1] + 40 => 1,
            name if name < first => 2,
            name if name < end => 3,
            _ => 4,
        };
        let shared = before.is_some_and(|before| before[0] == item[0] && before[6] == item[6]);
        let in_header = u32::from(first < template[1] + 40);
        traits.push(("item's name", [stands, in_header, u32::from(shared), 0]));
        for (place, &word) in (0..).zip(&item[1..6]) {
            traits.push(("item's word", [place, few(word.into()), 0, 0]));
        }
        before = Some(item);
    }
    traits
}

/// Signatures that a provider names twice: of a kind, where the last is kept, or of none.
fn descriptors(answer: &Answer) -> Vec<Trait> {
    let mut traits = Vec::new();
    let mut all = answer.entries(DESCRIPTORS);
    for provider in answer.entries(PROVIDERS) {
        let own: Vec<&[u32]> = all.by_ref().take(provider[7] as usize).collect();
        for (i, one) in own.iter().enumerate() {
            for other in &own[..i] {
                if one[2] == other[2] {
                    let same = u32::from(one[0] == other[0]);
                    traits.push(("named twice", [one[2], same, 0, 0]));
                }
            }
        }
    }
    traits
}

/// What an entry's name is like: absent, empty, ended by a zero unit or not, with pairs or without.
fn named(blob: &[u8], list: u32, entry: &[u32]) -> u32 {
    match Name::of(list, entry) {
        Some((_, name)) if name.offset != 0 => {
            let pairs = u32::from(name.pairs(blob).any(|pair| pair));
            1 + name.ended + 2 * pairs + 4 * few(name.units.into())
        }
        _ => 0,
    }
}

/// The forms of the long names.
fn long_names(blob: &[u8], answer: &Answer) -> Vec<Trait> {
    let forms = names::all(answer).filter_map(|(_, name)| name.form(blob));
    let numbers = forms.map(|[end, past, pair]| [end as u32, past as u32, pair as u32, 0]);
    numbers.map(|numbers| ("long name", numbers)).collect()
}

/// A number as far as a trait tells it from others: the small ones, the largest, the rest.
fn few(number: u64) -> u32 {
    match number {
        0..=3 => number as u32,
        0xffff_ffff => 5,
        0x8000_0000.. => 6,
        _ => 4,
    }
}
