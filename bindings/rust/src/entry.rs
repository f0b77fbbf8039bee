//! An entry of each list. Names of fields are those of the list's words in docs/FORMAT.md.

use std::ops::Range;

use crate::entries::Entry;
use crate::items::ItemsOf;
use crate::list::List;
use crate::parts::{Guid, Name, Part, Signature};

/// List 1: a provider.
#[derive(Clone, Copy, Debug, PartialEq, Eq)]
#[non_exhaustive]
pub struct Provider {
    /// Its GUID.
    pub guid: Guid,
    /// The place of its WEVT.
    pub offset: u32,
    /// The size that its WEVT says, which isn't tested.
    pub size: u32,
    /// The number of its message.
    pub message: Option<u32>,
    /// How many descriptors it has.
    pub descriptor_count: u32,
    /// How many unknown2 words it has.
    pub unknown2_count: u32,
}

/// List 2: where an element of a provider stands.
#[derive(Clone, Copy, Debug, PartialEq, Eq)]
#[non_exhaustive]
pub struct Descriptor {
    /// The element's place.
    pub offset: u32,
    /// The descriptor's other word, whose meaning isn't known.
    pub unknown: u32,
    /// What its element starts with.
    pub signature: Signature,
}

/// The kinds of tables, by their numbers.
#[derive(Clone, Copy, Debug, PartialEq, Eq, Hash)]
#[non_exhaustive]
pub enum Kind {
    /// Channels.
    Chan = 1,
    /// Events.
    Evnt = 2,
    /// Keywords.
    Keyw = 3,
    /// Levels.
    Levl = 4,
    /// Maps.
    Maps = 5,
    /// Opcodes.
    Opco = 6,
    /// Tasks.
    Task = 7,
    /// Templates.
    Ttbl = 8,
}

/// List 4: a table of a provider.
#[derive(Clone, Debug, PartialEq, Eq)]
#[non_exhaustive]
pub struct Table<'a> {
    /// The number of the provider that it belongs to.
    pub provider: u32,
    /// What it is a table of.
    pub kind: Kind,
    /// Its place.
    pub offset: u32,
    /// Its size as it says it, which may be 0.
    pub size: u32,
    /// An EVNT's word at byte 12.
    pub extra: u32,
    /// The numbers of its entries: definitions, events, maps or templates, as its kind has.
    pub entries: Range<usize>,
    /// What stands behind an EVNT's records.
    pub trailing: Part<'a>,
}

/// List 5: a record of CHAN, KEYW, LEVL, OPCO or TASK.
#[derive(Clone, Copy, Debug, PartialEq, Eq)]
#[non_exhaustive]
pub struct Definition<'a> {
    /// The kind of its table.
    pub kind: Kind,
    /// What events name it by. Only a KEYW's has more than 32 bits.
    pub identifier: u64,
    /// The number of its message.
    pub message: Option<u32>,
    /// The place of its name; 0 if it has none.
    pub name_offset: u32,
    /// Its name.
    pub name: Option<Name<'a>>,
    /// Only a CHAN has it.
    pub unknown: u32,
    /// Only a TASK has it.
    pub mui: Guid,
}

/// List 6: an event.
#[derive(Clone, Copy, Debug, PartialEq, Eq)]
#[non_exhaustive]
pub struct Event {
    /// Its identifier, which a log has too, as the six below.
    pub identifier: u16,
    /// Its version.
    pub version: u8,
    /// Its channel.
    pub channel: u8,
    /// Its level.
    pub level: u8,
    /// Its opcode.
    pub opcode: u8,
    /// Its task.
    pub task: u16,
    /// Its keywords, a bit for each.
    pub keywords: u64,
    /// The number of its message. Here no number means that there is none.
    pub message: u32,
    /// The place of its template.
    pub template_offset: Option<u32>,
    /// The place of its opcode's definition.
    pub opcode_offset: Option<u32>,
    /// The place of its level's definition.
    pub level_offset: Option<u32>,
    /// The place of its task's definition.
    pub task_offset: Option<u32>,
    /// A count whose meaning isn't known.
    pub unknown_count: u32,
    /// An offset whose meaning isn't known.
    pub unknown_offset: u32,
    /// Its flags.
    pub flags: u32,
}

/// The kinds of maps, by their numbers.
#[derive(Clone, Copy, Debug, PartialEq, Eq, Hash)]
#[non_exhaustive]
pub enum MapKind {
    /// Values: a VMAP.
    Vmap = 1,
    /// Bits: a BMAP.
    Bmap = 2,
    /// What starts with another signature.
    Other = 3,
}

/// List 7: a map. Only a VMAP has a size, a name and entries.
#[derive(Clone, Debug, PartialEq, Eq)]
#[non_exhaustive]
pub struct Map<'a> {
    /// What it is a map of.
    pub kind: MapKind,
    /// What it starts with.
    pub signature: Signature,
    /// Its place.
    pub offset: u32,
    /// Its size.
    pub size: u32,
    /// The place of its name; 0 if it has none.
    pub string_offset: u32,
    /// Its name.
    pub name: Option<Name<'a>>,
    /// The numbers of its map entries.
    pub entries: Range<usize>,
    /// What stands behind a VMAP's entries; of any other map its first bytes, up to 4.
    pub data: Part<'a>,
}

/// List 8: an entry of a VMAP.
#[derive(Clone, Copy, Debug, PartialEq, Eq)]
#[non_exhaustive]
pub struct MapEntry {
    /// The value that it is about.
    pub identifier: u32,
    /// The number of its message.
    pub message: Option<u32>,
}

/// List 9: a template.
#[derive(Clone, Copy, Debug, PartialEq, Eq)]
#[non_exhaustive]
pub struct Template<'a> {
    /// The number of the provider that it belongs to.
    pub provider: u32,
    /// Its place.
    pub offset: u32,
    /// Its size.
    pub size: u32,
    /// How many items it has.
    pub item_descriptor_count: u32,
    /// How many names its items have.
    pub item_name_count: u32,
    /// The place of its items; 0 stands for its end.
    pub items_offset: u32,
    /// Its event type.
    pub event_type: u32,
    /// Its GUID.
    pub guid: Guid,
    /// Its BinXML.
    pub binxml: Part<'a>,
    pub(crate) items: ItemsOf<'a>,
}

/// List 10: an element that is no table of a known kind.
#[derive(Clone, Copy, Debug, PartialEq, Eq)]
#[non_exhaustive]
pub struct UnknownElement<'a> {
    /// The number of the provider that it belongs to.
    pub provider: u32,
    /// What it starts with.
    pub signature: Signature,
    /// Its place.
    pub offset: u32,
    /// Its size.
    pub size: u32,
    /// All its bytes, signature and size included.
    pub data: Part<'a>,
}

/// List 12: an item of a template. It says what one of the values is that an event with this
/// template carries.
#[derive(Clone, Copy, Debug, PartialEq, Eq)]
#[non_exhaustive]
pub struct Item<'a> {
    /// The number of the template that it belongs to.
    pub template: u32,
    /// A word whose meaning isn't known.
    pub unknown1: u32,
    /// The type of the value in the event.
    pub input_type: u8,
    /// The type that the value is shown as.
    pub output_type: u8,
    /// A number whose meaning isn't known.
    pub unknown3: u16,
    /// A word whose meaning isn't known.
    pub unknown4: u32,
    /// How many values it stands for.
    pub count: u16,
    /// The length of the value.
    pub length: u16,
    /// The place of its name; 0 if it has none.
    pub name_offset: u32,
    /// Its name.
    pub name: Option<Name<'a>>,
}

impl Entry<'_> for Provider {
    const LIST: List = List::Providers;
}

impl Entry<'_> for Descriptor {
    const LIST: List = List::Descriptors;
}

/// An entry of list 3 is its word.
impl Entry<'_> for u32 {
    const LIST: List = List::Unknown2;
}

impl<'a> Entry<'a> for Table<'a> {
    const LIST: List = List::Tables;
}

impl<'a> Entry<'a> for Definition<'a> {
    const LIST: List = List::Definitions;
}

impl Entry<'_> for Event {
    const LIST: List = List::Events;
}

impl<'a> Entry<'a> for Map<'a> {
    const LIST: List = List::Maps;
}

impl Entry<'_> for MapEntry {
    const LIST: List = List::MapEntries;
}

impl<'a> Entry<'a> for Template<'a> {
    const LIST: List = List::Templates;
}

impl<'a> Entry<'a> for UnknownElement<'a> {
    const LIST: List = List::UnknownElements;
}

impl<'a> Entry<'a> for Item<'a> {
    const LIST: List = List::Items;
}
