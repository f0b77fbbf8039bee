//! drive FOLDER: the samples. `drive.crim` is a block of the sort that a drive cabinet's provider file holds, written with the
//! benchmark's writer; `drive.txt` is its listing, `fields.txt` what its templates' items are, `events.txt` which templates its events'
//! keys give, `drive.index` the index of its events and `index.txt` what that shows, all told from what was written and where; `t.bin` is
//! the blob T.

#[path = "../oracle/generator/small.rs"]
#[allow(dead_code)]
mod small;
#[path = "../bench/writer.rs"]
#[allow(dead_code)]
mod writer;

use std::path::PathBuf;

use writer::Writer;

/// A message identifier that names none.
const NONE: u32 = u32::MAX;

/// What a value is: its type in BinXML, the type that it is shown as, and its length in bytes.
#[derive(Clone, Copy)]
struct Type(u8, u8, u16);

const U32: Type = Type(0x08, 0x08, 4);
const TEXT: Type = Type(0x01, 0x01, 0);

/// A name and what the value is.
type Values = &'static [(&'static str, Type)];

/// The field that `fields.txt` says the place of.
const FIELD: &str = "Metres";

/// What is told of the templates: a line for each in the listing, and its fields; and of the events that have one the numbers of their
/// entries in the index.
#[derive(Default)]
struct Told {
    listing: String,
    fields: String,
    entries: Vec<[u64; 9]>,
}

/// Identifier, level (2 to 4), task and opcode (counted from 1, 0 for none), keywords, and what it carries: an event that carries nothing
/// has no template.
type Event = (u32, u32, u32, u32, u32, Values);

struct Provider {
    guid: [u32; 4],
    channels: &'static [&'static str],
    tasks: &'static [&'static str],
    opcodes: &'static [&'static str],
    keywords: &'static [&'static str],
    /// Names of value maps.
    maps: &'static [&'static str],
    events: &'static [Event],
}

/// Names that no zero unit ends: a task's, and an item's.
const RUN_OUT: [&str; 2] = ["RopeInspected", "Inspector"];

/// The GUID that two providers have.
const CABINET: [u32; 4] = [0x5b1f_33d2, 0x4f0e_9a61, 0x71c4_08b3, 0x1d92_6ee7];

const LEVELS: [&str; 3] = ["win:Error", "win:Warning", "win:Informational"];

const PROVIDERS: [Provider; 4] = [
    // The drive cabinet.
    Provider {
        guid: CABINET,
        channels: &["DriveCabinet/Operational", "DriveCabinet/Diagnostic"],
        tasks: &["CarPassed", "DriveStarted", "DriveStopped"],
        opcodes: &["Up", "Down"],
        keywords: &["Position", "Safety"],
        maps: &["StopCause"],
        events: &[
            (
                100,
                4,
                1,
                1,
                1,
                &[("Car", U32), ("Position", U32), ("Tick", U32)],
            ),
            (
                101,
                4,
                1,
                2,
                1,
                &[("Car", U32), ("Position", U32), ("Tick", U32)],
            ),
            (110, 4, 2, 0, 0, &[("Speed", U32)]),
            (
                111,
                3,
                3,
                0,
                2,
                &[("Cause", U32), ("Position", U32), ("Metres", U32)],
            ),
            (119, 2, 3, 0, 2, &[]),
        ],
    },
    // The haul rope.
    Provider {
        guid: [0x0c77_a1e4, 0x4a5d_22b8, 0x99d0_3f86, 0xb24e_517c],
        channels: &["HaulRope/Operational"],
        tasks: &["TensionMeasured", "RopeInspected"],
        opcodes: &[],
        keywords: &["Maintenance"],
        maps: &[],
        events: &[
            (200, 4, 1, 0, 0, &[("Tension", U32), ("Tick", U32)]),
            (210, 4, 2, 0, 1, &[("Inspector", TEXT)]),
        ],
    },
    // The cars' doors.
    Provider {
        guid: [0xe3d8_9b05, 0x4c12_f76a, 0x205b_88af, 0x6f0a_d931],
        channels: &[],
        tasks: &[],
        opcodes: &[],
        keywords: &[],
        maps: &[],
        events: &[(300, 4, 0, 0, 0, &[])],
    },
    // The drive cabinet again: what it logs since its software was renewed, in a second WEVT of its GUID.
    Provider {
        guid: CABINET,
        channels: &[],
        tasks: &["CarPassed", "RollerPassed"],
        opcodes: &["Up", "Down"],
        keywords: &["Position"],
        maps: &[],
        events: &[
            (
                100,
                4,
                1,
                1,
                1,
                &[
                    ("Car", U32),
                    ("Position", U32),
                    ("Tick", U32),
                    ("Metres", U32),
                ],
            ),
            (
                101,
                4,
                1,
                2,
                1,
                &[("Car", U32), ("Position", U32), ("Tick", U32)],
            ),
            (120, 4, 2, 0, 1, &[("Roller", U32), ("Metres", U32)]),
        ],
    },
];

fn main() -> std::io::Result<()> {
    let folder = PathBuf::from(std::env::args().nth(1).unwrap_or_else(|| ".".into()));
    let mut w = Writer::new(PROVIDERS.len() as u32);
    let mut told = Told::default();
    for (number, provider) in (0..).zip(&PROVIDERS) {
        for (part, word) in (0..).zip(provider.guid) {
            w.set(16 + 20 * number + 4 * part, word);
        }
        let wevt = write(&mut w, number, provider, &mut told);
        w.provider(number, wevt);
    }
    let block = w.close();
    let (size, providers, templates) = (block.len(), PROVIDERS.len(), told.listing.lines().count());
    let events: usize = PROVIDERS.iter().map(|provider| provider.events.len()).sum();
    let first =
        format!("crim {size} providers {providers} events {events} templates {templates}\n");
    std::fs::write(folder.join("drive.crim"), block)?;
    std::fs::write(folder.join("drive.txt"), first + &told.listing)?;
    std::fs::write(folder.join("fields.txt"), told.fields)?;
    std::fs::write(folder.join("events.txt"), joins())?;
    std::fs::write(folder.join("drive.index"), index(&told.entries))?;
    std::fs::write(folder.join("index.txt"), entries(&told.entries))?;
    std::fs::write(folder.join("t.bin"), small::t())
}

/// The tables and the WEVT of the provider with a number; gives the WEVT's place.
fn write(w: &mut Writer, number: u32, provider: &Provider, told: &mut Told) -> u32 {
    let message = number << 28;
    let mut elements = Vec::new();
    let all = &mut elements;
    table(w, all, b"CHAN", provider.channels, |i, name| {
        vec![15 + i, name, 0, NONE]
    });
    let templates = templates(w, all, number, provider.events, told);
    let levels = table(w, all, b"LEVL", &LEVELS, |i, name| {
        vec![1 + i, 0x5000_0001 + i, name]
    });
    let tasks = table(w, all, b"TASK", provider.tasks, |i, name| {
        vec![i, message + 0x700 + i, 0, 0, 0, 0, name]
    });
    let opcodes = table(w, all, b"OPCO", provider.opcodes, |i, name| {
        vec![i << 16, message + 0x300 + i, name]
    });
    table(w, all, b"KEYW", provider.keywords, |i, name| {
        vec![1 << (i - 1), 0, message + 0x100 + i, name]
    });
    for map in provider.maps {
        let name = w.name_of(units(map));
        elements.push(w.maps(1, 4, name));
    }
    let table = w.open(b"EVNT");
    w.words(&[provider.events.len() as u32, 0]);
    let place = |places: &[u32], number: u32| match number {
        0 => 0,
        number => places[number as usize - 1],
    };
    for (&(identifier, level, task, opcode, keywords, _), &template) in
        provider.events.iter().zip(&templates)
    {
        w.words(&[
            identifier | 16 << 24,
            level | opcode << 8 | task << 16,
            keywords,
            0,
        ]);
        w.words(&[
            message + identifier,
            template,
            place(&opcodes, opcode),
            place(&levels, level - 1),
            place(&tasks, task),
            0,
            0,
            0,
        ]);
        let fields = [
            number, identifier, 0, 16, level, opcode, task, keywords, template,
        ];
        told.entries
            .extend((template != 0).then_some(fields.map(u64::from)));
    }
    w.end(table);
    elements.push(table);
    let wevt = w.wevt(&elements, 0);
    w.set(wevt + 8, NONE);
    wevt
}

/// The index: edition 1, the providers, none of which has an unknown2 word, and the entries.
fn index(entries: &[[u64; 9]]) -> Vec<u8> {
    let head = [1, PROVIDERS.len() as u64];
    let counts = PROVIDERS.iter().map(|_| 0);
    let numbers = head.into_iter().chain(counts);
    let numbers = numbers.chain([entries.len() as u64]);
    let mut bytes = Vec::new();
    for mut number in numbers.chain(entries.iter().flatten().copied()) {
        while number > 127 {
            bytes.push(number as u8 | 128);
            number >>= 7;
        }
        bytes.push(number as u8);
    }
    bytes
}

/// Its entries, as the Rust crate's example shows them.
fn entries(entries: &[[u64; 9]]) -> String {
    let lines = entries.iter().map(|entry| {
        let [
            provider,
            event,
            version,
            channel,
            level,
            opcode,
            task,
            keywords,
            template,
        ] = entry;
        format!(
            "provider {provider} event {event} version {version} channel {channel} level {level} \
             opcode {opcode} task {task} keywords {keywords:#x} template {template}\n"
        )
    });
    lines.collect()
}

/// A table with a record for each name, which are counted from 1, if there are any; gives the records' places.
fn table(
    w: &mut Writer,
    elements: &mut Vec<u32>,
    signature: &[u8; 4],
    names: &[&str],
    record: impl Fn(u32, u32) -> Vec<u32>,
) -> Vec<u32> {
    if names.is_empty() {
        return Vec::new();
    }
    let names: Vec<u32> = names.iter().map(|name| w.name_of(units(name))).collect();
    let place = w.open(signature);
    w.words(&[names.len() as u32]);
    let mut records = Vec::new();
    for (i, &name) in (1..).zip(&names) {
        records.push(w.here());
        w.words(&record(i, name));
    }
    w.end(place);
    elements.push(place);
    records
}

/// A template for each event of a provider that carries something, and what is told of it; gives their places, 0 for none.
fn templates(
    w: &mut Writer,
    elements: &mut Vec<u32>,
    provider: u32,
    events: &[Event],
    told: &mut Told,
) -> Vec<u32> {
    let with = events.iter().filter(|event| !event.5.is_empty()).count();
    if with == 0 {
        return vec![0; events.len()];
    }
    let place = w.open(b"TTBL");
    w.words(&[with as u32]);
    let mut places = Vec::new();
    for &(identifier, _, _, _, _, values) in events {
        if values.is_empty() {
            places.push(0);
            continue;
        }
        let temp = w.open(b"TEMP");
        w.words(&[0, 0, 0, 1]);
        w.words(&template_guid(identifier, values));
        let binxml = binxml(values);
        w.bytes.extend(&binxml);
        let items = values.iter().map(|&(name, Type(input, output, length))| {
            let types = u32::from_le_bytes([input, output, 0, 0]);
            ([0, types, 0, 1 | u32::from(length) << 16], units(name))
        });
        w.named_items(temp, items);
        w.end(temp);
        let (size, start, length) = (w.here() - temp, temp + 40, binxml.len());
        told.listing += &format!("template {temp} provider {provider} size {size} ");
        told.listing += &format!("binxml {start} {length}\n");
        told.fields += &fields(temp, values);
        places.push(temp);
    }
    w.end(place);
    elements.push(place);
    places
}

/// The GUID of a template: events of one identifier that carry as many values have one.
fn template_guid(identifier: u32, values: Values) -> [u32; 4] {
    let values = values.len() as u32;
    [
        identifier | values << 16,
        0x4a11_0c3f,
        0x83d2_96e0,
        0x2b57_f4a9,
    ]
}

/// The templates that each event's key gives, as the Rust crate's example shows them: those of all events with that key, of all
/// providers with that GUID, each once.
fn joins() -> String {
    let mut lines = String::new();
    for (number, provider) in PROVIDERS.iter().enumerate() {
        let alike = PROVIDERS
            .iter()
            .filter(|other| other.guid == provider.guid)
            .flat_map(|other| other.events);
        for event in provider.events {
            lines += &format!("event {} of provider {number}:", event.0);
            let mut given = Vec::new();
            for other in alike.clone().filter(|other| key(other) == key(event)) {
                let guid = template_guid(other.0, other.5);
                if !other.5.is_empty() && !given.contains(&guid) {
                    given.push(guid);
                    lines += &format!(" {}", shown_guid(guid));
                }
            }
            lines += "\n";
        }
    }
    lines
}

fn key(&(identifier, level, task, opcode, keywords, _): &Event) -> [u32; 5] {
    [identifier, level, task, opcode, keywords]
}

/// A GUID in its usual form.
fn shown_guid([a, b, c, d]: [u32; 4]) -> String {
    let [c, d] = [c, d].map(u32::swap_bytes);
    let (second, third) = (b & 0xffff, b >> 16);
    format!(
        "{a:08X}-{second:04X}-{third:04X}-{:04X}-{:04X}{d:08X}",
        c >> 16,
        c & 0xffff
    )
}

/// The fields of a template, as the Rust crate's example shows them, and where FIELD is among them.
fn fields(temp: u32, values: Values) -> String {
    let shown: Vec<String> = values.iter().map(|value| shown(value.0)).collect();
    let mut lines = format!("template {temp}: {}\n", shown.join(" "));
    if let Some(number) = values.iter().position(|value| value.0 == FIELD) {
        let Type(input, output, length) = values[number].1;
        lines +=
            &format!("  {FIELD}: field {number}, types {input} and {output}, length {length}\n");
    }
    lines
}

/// A name's units, with the zero unit that ends it unless it is to run out.
fn units(name: &str) -> impl Iterator<Item = u16> {
    name.encode_utf16().chain(ended(name).then_some(0))
}

/// A name as it is shown: one that runs out is marked.
fn shown(name: &str) -> String {
    format!("{name}{}", if ended(name) { "" } else { " (ran out)" })
}

fn ended(name: &str) -> bool {
    !RUN_OUT.contains(&name)
}

/// The BinXML of `<EventData><Data Name="NAME">VALUE</Data>..</EventData>`.
fn binxml(values: Values) -> Vec<u8> {
    let mut data = vec![0x02];
    for (number, (name, Type(input, _, _))) in (0u16..).zip(values) {
        let mut attribute = [&[0x06], &named("Name")[..], &[0x05, 0x01]].concat();
        attribute.extend((name.len() as u16).to_le_bytes());
        attribute.extend(name.encode_utf16().flat_map(u16::to_le_bytes));
        let mut body = (attribute.len() as u32).to_le_bytes().to_vec();
        body.extend(attribute);
        body.extend([0x02, 0x0d]);
        body.extend(number.to_le_bytes());
        body.extend([*input, 0x04]);
        data.extend(element(0x41, "Data", &body));
    }
    data.push(0x04);
    [
        &[0x0f, 0x01, 0x01, 0x00],
        &element(0x01, "EventData", &data)[..],
        &[0x00],
    ]
    .concat()
}

/// An element: its token, no dependency, its size, its name and what follows.
fn element(token: u8, name: &str, rest: &[u8]) -> Vec<u8> {
    let rest = [&named(name)[..], rest].concat();
    [
        &[token, 0xff, 0xff],
        &(rest.len() as u32).to_le_bytes()[..],
        &rest,
    ]
    .concat()
}

/// A name in BinXML: its hash, its length, its units and a zero unit.
fn named(name: &str) -> Vec<u8> {
    let hash = name.encode_utf16().fold(0u32, |hash, unit| {
        hash.wrapping_mul(65_599).wrapping_add(unit.into())
    });
    let mut units = vec![hash as u16, name.len() as u16];
    units.extend(name.encode_utf16());
    units.push(0);
    units.into_iter().flat_map(u16::to_le_bytes).collect()
}
