//! From what an original read, or refused, to an answer.

use super::reader::Guid;
use super::reader::wevt_templates::manifest::{
    ChannelDefinitions, CrimManifest, EventDefinitions, KeywordDefinitions, LevelDefinitions,
    MapDefinition, MapsDefinitions, OpcodeDefinitions, Provider, TaskDefinitions, TemplateItem,
    TemplateTable, WevtManifestError,
};
use crate::lists::{
    DEFINITIONS, DESCRIPTORS, EVENTS, ITEMS, LISTS, MAP_ENTRIES, MAPS, PROVIDERS, ROWS, TABLES,
    TEMPLATES, UNKNOWN_ELEMENTS, UNKNOWN2, row_of,
};
use crate::{Answer, LONGEST, fields, refusal};

pub fn answer(blob: &[u8]) -> Answer {
    if blob.len() > LONGEST {
        return refusal(7, 0, 0, 0, 0);
    }
    match CrimManifest::parse(blob) {
        Ok(manifest) => acceptance(&manifest),
        Err(error) => from_error(&error),
    }
}

pub fn from_error(error: &WevtManifestError) -> Answer {
    use WevtManifestError::*;
    match *error {
        Truncated {
            what,
            offset,
            need,
            have,
        } => refusal(1, fields::number(what), offset, need as u64, have as u64),
        InvalidSignature {
            offset,
            expected,
            found,
        } => refusal(
            2,
            0,
            offset,
            u32::from_le_bytes(expected).into(),
            u32::from_le_bytes(found).into(),
        ),
        SizeOutOfBounds { what, offset, size } => {
            refusal(3, fields::number(what), offset, size.into(), 0)
        }
        CountOutOfBounds {
            what,
            offset,
            count,
        } => refusal(4, fields::number(what), offset, count.into(), 0),
        OffsetOutOfBounds { what, offset, len } => {
            refusal(5, fields::number(what), offset, len as u64, 0)
        }
        InvalidUtf16String { what, offset } => refusal(6, fields::number(what), offset, 0, 0),
    }
}

fn acceptance(manifest: &CrimManifest) -> Answer {
    let mut lists = Lists::new(manifest.data);
    for (provider, number) in manifest.providers.iter().zip(0..) {
        lists.provider(number, provider);
    }
    let header = &manifest.header;
    Answer {
        code: 0,
        field: 0,
        place: 0,
        first: header.size.into(),
        second: u64::from(header.major_version) + 65_536 * u64::from(header.minor_version),
        lists: lists.words,
    }
}

/// The tables' kinds.
#[derive(Clone, Copy)]
enum Kind {
    Chan = 1,
    Evnt,
    Keyw,
    Levl,
    Maps,
    Opco,
    Task,
    Ttbl,
}

/// A table without its entries. What a kind lacks is 0.
#[derive(Default)]
struct Table {
    offset: u32,
    size: u32,
    extra: u32,
    count: usize,
    trailing: [u32; 2],
}

/// An entry of `DEFINITIONS`. What a kind lacks is 0.
struct Definition<'a> {
    kind: Kind,
    identifier: u64,
    message: Option<u32>,
    name_offset: u32,
    name: &'a Option<String>,
    unknown: u32,
    mui: [u32; 4],
}

pub struct Lists<'a> {
    blob: &'a [u8],
    pub words: [Vec<u32>; LISTS],
}

impl Lists<'_> {
    pub fn new(blob: &[u8]) -> Lists<'_> {
        Lists {
            blob,
            words: Default::default(),
        }
    }

    /// Start and length of a part of the blob that the original kept. The start
    /// is the format's; that the part really starts there is tested.
    fn kept(&self, start: u32, part: &[u8]) -> [u32; 2] {
        if let Some(first) = part.first() {
            let there = &self.blob[start as usize];
            assert!(
                std::ptr::eq(first, there),
                "a part doesn't start at {start}"
            );
        }
        [start, word(part.len())]
    }

    /// The same of bytes that the original copied.
    fn copied(&self, start: u32, part: &[u8]) -> [u32; 2] {
        let there = &self.blob[start as usize..];
        assert!(there.starts_with(part), "a part doesn't stand at {start}");
        [start, word(part.len())]
    }

    /// Start and units of a name, and whether a zero unit ended it; 0, 0 and 0 for an absent one.
    fn name(&self, offset: u32, name: &Option<String>) -> [u32; 3] {
        let Some(text) = name else {
            return [0, 0, 0];
        };
        let units: Vec<u8> = text.encode_utf16().flat_map(u16::to_le_bytes).collect();
        let [start, bytes] = self.copied(offset + 4, &units);
        [start, bytes / 2, self.ended(offset, &units)]
    }

    /// 1 where a zero unit ended the name at an offset, which has this text, and 0 where it ran out.
    /// The original doesn't keep it, but the name's size tells: only before a zero unit does a text
    /// end short of it.
    fn ended(&self, offset: u32, text: &[u8]) -> u32 {
        let (size, name) = self.blob[offset as usize..].split_at(4);
        let size = u32::from_le_bytes(size.try_into().expect("four bytes")) as usize;
        let behind = &name[text.len()..size - 4];
        assert!(
            behind.is_empty() || behind.starts_with(&[0, 0]),
            "the name at {offset} goes on behind its text"
        );
        u32::from(!behind.is_empty())
    }

    fn put<const N: usize>(&mut self, list: u32, entry: [u32; N]) {
        let row = row_of(list);
        assert_eq!(N, ROWS[row].words);
        self.words[row].extend(entry);
    }

    /// How many entries were put in a list so far.
    fn written(&self, list: u32) -> u32 {
        let row = row_of(list);
        word(self.words[row].len() / ROWS[row].words)
    }

    /// All of one provider; its tables in the order of their kinds.
    fn provider(&mut self, number: u32, provider: &Provider) {
        let wevt = &provider.wevt;
        let [a, b, c, d] = guid(provider.guid);
        self.put(
            PROVIDERS,
            [
                a,
                b,
                c,
                d,
                wevt.offset,
                wevt.size,
                message(wevt.message_identifier),
                word(wevt.element_descriptors.len()),
                word(wevt.unknown2.len()),
            ],
        );
        for d in &wevt.element_descriptors {
            let signature = u32::from_le_bytes(d.signature);
            self.put(DESCRIPTORS, [d.element_offset, d.unknown, signature]);
        }
        for &value in &wevt.unknown2 {
            self.put(UNKNOWN2, [value]);
        }

        let elements = &wevt.elements;
        if let Some(table) = &elements.channels {
            self.channels(number, table);
        }
        if let Some(table) = &elements.events {
            self.events(number, table);
        }
        if let Some(table) = &elements.keywords {
            self.keywords(number, table);
        }
        if let Some(table) = &elements.levels {
            self.levels(number, table);
        }
        if let Some(table) = &elements.maps {
            self.maps(number, table);
        }
        if let Some(table) = &elements.opcodes {
            self.opcodes(number, table);
        }
        if let Some(table) = &elements.tasks {
            self.tasks(number, table);
        }
        if let Some(table) = &elements.templates {
            self.templates(number, table);
        }
        for element in &elements.unknown {
            let signature = u32::from_le_bytes(element.signature);
            self.put(
                UNKNOWN_ELEMENTS,
                [number, signature, element.offset, element.size],
            );
        }
    }

    /// A table's own entry, put before its entries, which `entries` will hold.
    fn table(&mut self, provider: u32, kind: Kind, entries: u32, table: Table) {
        let [trailing_start, trailing_length] = table.trailing;
        self.put(
            TABLES,
            [
                provider,
                kind as u32,
                table.offset,
                table.size,
                table.extra,
                self.written(entries),
                word(table.count),
                trailing_start,
                trailing_length,
            ],
        );
    }

    /// The table of a kind that has definitions.
    fn defining(&mut self, provider: u32, kind: Kind, offset: u32, size: u32, count: usize) {
        let table = Table {
            offset,
            size,
            count,
            ..Table::default()
        };
        self.table(provider, kind, DEFINITIONS, table);
    }

    fn definition(&mut self, d: Definition) {
        let [name_start, name_units, name_ended] = self.name(d.name_offset, d.name);
        let [mui_1, mui_2, mui_3, mui_4] = d.mui;
        self.put(
            DEFINITIONS,
            [
                d.kind as u32,
                d.identifier as u32,
                (d.identifier >> 32) as u32,
                message(d.message),
                d.name_offset,
                name_start,
                name_units,
                d.unknown,
                mui_1,
                mui_2,
                mui_3,
                mui_4,
                name_ended,
            ],
        );
    }

    fn channels(&mut self, provider: u32, t: &ChannelDefinitions) {
        self.defining(provider, Kind::Chan, t.offset, t.size, t.channels.len());
        for c in &t.channels {
            self.definition(Definition {
                kind: Kind::Chan,
                identifier: c.identifier.into(),
                message: c.message_identifier,
                name_offset: c.name_offset,
                name: &c.name,
                unknown: c.unknown,
                mui: [0; 4],
            });
        }
    }

    fn keywords(&mut self, provider: u32, t: &KeywordDefinitions) {
        self.defining(provider, Kind::Keyw, t.offset, t.size, t.keywords.len());
        for k in &t.keywords {
            self.definition(Definition {
                kind: Kind::Keyw,
                identifier: k.identifier,
                message: k.message_identifier,
                name_offset: k.data_offset,
                name: &k.name,
                unknown: 0,
                mui: [0; 4],
            });
        }
    }

    fn levels(&mut self, provider: u32, t: &LevelDefinitions) {
        self.defining(provider, Kind::Levl, t.offset, t.size, t.levels.len());
        for l in &t.levels {
            self.definition(Definition {
                kind: Kind::Levl,
                identifier: l.identifier.into(),
                message: l.message_identifier,
                name_offset: l.data_offset,
                name: &l.name,
                unknown: 0,
                mui: [0; 4],
            });
        }
    }

    fn opcodes(&mut self, provider: u32, t: &OpcodeDefinitions) {
        self.defining(provider, Kind::Opco, t.offset, t.size, t.opcodes.len());
        for o in &t.opcodes {
            self.definition(Definition {
                kind: Kind::Opco,
                identifier: o.identifier.into(),
                message: o.message_identifier,
                name_offset: o.data_offset,
                name: &o.name,
                unknown: 0,
                mui: [0; 4],
            });
        }
    }

    fn tasks(&mut self, provider: u32, t: &TaskDefinitions) {
        self.defining(provider, Kind::Task, t.offset, t.size, t.tasks.len());
        for task in &t.tasks {
            self.definition(Definition {
                kind: Kind::Task,
                identifier: task.identifier.into(),
                message: task.message_identifier,
                name_offset: task.data_offset,
                name: &task.name,
                unknown: 0,
                mui: guid(task.mui_identifier),
            });
        }
    }

    fn events(&mut self, provider: u32, t: &EventDefinitions) {
        let records_end = t.offset + 16 + 48 * word(t.events.len());
        let table = Table {
            offset: t.offset,
            size: t.size,
            extra: t.unknown,
            count: t.events.len(),
            trailing: self.copied(records_end, &t.trailing),
        };
        self.table(provider, Kind::Evnt, EVENTS, table);
        for e in &t.events {
            self.put(
                EVENTS,
                [
                    e.identifier.into(),
                    e.version.into(),
                    e.channel.into(),
                    e.level.into(),
                    e.opcode.into(),
                    e.task.into(),
                    e.keywords as u32,
                    (e.keywords >> 32) as u32,
                    e.message_identifier,
                    e.template_offset.unwrap_or(0),
                    e.opcode_offset.unwrap_or(0),
                    e.level_offset.unwrap_or(0),
                    e.task_offset.unwrap_or(0),
                    e.unknown_count,
                    e.unknown_offset,
                    e.flags,
                ],
            );
        }
    }

    fn maps(&mut self, provider: u32, t: &MapsDefinitions) {
        let table = Table {
            offset: t.offset,
            size: t.size,
            count: t.maps.len(),
            ..Table::default()
        };
        self.table(provider, Kind::Maps, MAPS, table);
        for map in &t.maps {
            self.map(map);
        }
    }

    fn map(&mut self, map: &MapDefinition) {
        match map {
            MapDefinition::ValueMap(v) => {
                let [name_start, name_units, name_ended] =
                    self.name(v.map_string_offset, &v.map_string);
                let entries_end = v.offset + 16 + 8 * word(v.entries.len());
                let [data_start, data_length] = self.kept(entries_end, v.trailing);
                self.put(
                    MAPS,
                    [
                        1,
                        u32::from_le_bytes(*b"VMAP"),
                        v.offset,
                        v.size,
                        v.map_string_offset,
                        name_start,
                        name_units,
                        self.written(MAP_ENTRIES),
                        word(v.entries.len()),
                        data_start,
                        data_length,
                        name_ended,
                    ],
                );
                for entry in &v.entries {
                    self.put(
                        MAP_ENTRIES,
                        [entry.identifier, message(entry.message_identifier)],
                    );
                }
            }
            MapDefinition::Bitmap(b) => self.plain_map(2, *b"BMAP", b.offset, b.data),
            MapDefinition::Unknown {
                signature,
                offset,
                data,
            } => self.plain_map(3, *signature, *offset, data),
        }
    }

    /// A map that isn't read further: its data starts at its own place.
    fn plain_map(&mut self, sort: u32, signature: [u8; 4], offset: u32, data: &[u8]) {
        let signature = u32::from_le_bytes(signature);
        let [start, length] = self.kept(offset, data);
        self.put(
            MAPS,
            [sort, signature, offset, 0, 0, 0, 0, 0, 0, start, length, 0],
        );
    }

    fn templates(&mut self, provider: u32, t: &TemplateTable) {
        let table = Table {
            offset: t.offset,
            size: t.size,
            count: t.templates.len(),
            ..Table::default()
        };
        self.table(provider, Kind::Ttbl, TEMPLATES, table);
        for template in &t.templates {
            self.items(self.written(TEMPLATES), &template.items);
            let [a, b, c, d] = guid(template.guid);
            let [start, length] = self.kept(template.offset + 40, template.binxml);
            self.put(
                TEMPLATES,
                [
                    provider,
                    template.offset,
                    template.size,
                    template.item_descriptor_count,
                    template.item_name_count,
                    template.template_items_offset,
                    template.event_type,
                    a,
                    b,
                    c,
                    d,
                    start,
                    length,
                ],
            );
        }
    }

    /// The items of the template with a number.
    pub fn items(&mut self, template: u32, items: &[TemplateItem]) {
        for item in items {
            let [start, units, ended] = self.name(item.name_offset, &item.name);
            self.put(
                ITEMS,
                [
                    template,
                    item.unknown1,
                    u32::from(item.input_type) + 256 * u32::from(item.output_type),
                    item.unknown3.into(),
                    item.unknown4,
                    u32::from(item.count) + 65_536 * u32::from(item.length),
                    item.name_offset,
                    start,
                    units,
                    ended,
                ],
            );
        }
    }
}

/// A length or count as a word. None can be too large: `LONGEST` bounds the
/// lengths, and lists of four billion entries don't fit in memory.
fn word(n: usize) -> u32 {
    u32::try_from(n).expect("a length or count within 32 bits")
}

/// The raw word of a message identifier, which the original takes apart.
fn message(identifier: Option<u32>) -> u32 {
    identifier.unwrap_or(u32::MAX)
}

pub fn guid(guid: Guid) -> [u32; 4] {
    let bytes = guid.bytes();
    std::array::from_fn(|i| {
        u32::from_le_bytes(bytes[4 * i..4 * i + 4].try_into().expect("four bytes"))
    })
}
