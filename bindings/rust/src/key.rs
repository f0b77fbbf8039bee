//! What an event is looked up by.

use crate::entry::Event;
use crate::index::IndexEntry;
use crate::parts::Guid;
use crate::raw;

/// What an event is looked up by: its provider's GUID, and the fields that a log has of it.
#[derive(Clone, Copy, Debug, PartialEq, Eq, Hash)]
pub struct Key {
    /// The provider's GUID.
    pub guid: Guid,
    /// The event's identifier.
    pub event_id: u16,
    /// Its version.
    pub version: u8,
    /// Its channel.
    pub channel: u8,
    /// Its level.
    pub level: u8,
    /// Its opcode.
    pub opcode: u8,
    /// Its task.
    pub task: u16,
    /// Its keywords.
    pub keywords: u64,
}

impl Key {
    pub(crate) fn words(&self) -> [u32; raw::KEY_WORDS] {
        let [a, b, c, d] = self.guid.to_words();
        [
            a,
            b,
            c,
            d,
            self.event_id.into(),
            self.version.into(),
            self.channel.into(),
            self.level.into(),
            self.opcode.into(),
            self.task.into(),
            self.keywords as u32,
            (self.keywords >> 32) as u32,
        ]
    }
}

impl Event {
    /// The event's key, if it is one of a provider with this GUID.
    pub fn key(&self, guid: Guid) -> Key {
        Key {
            guid,
            event_id: self.identifier,
            version: self.version,
            channel: self.channel,
            level: self.level,
            opcode: self.opcode,
            task: self.task,
            keywords: self.keywords,
        }
    }
}

impl IndexEntry {
    /// The key of the entry's event, if its provider is one with this GUID.
    pub fn key(&self, guid: Guid) -> Key {
        Key {
            guid,
            event_id: self.event_id,
            version: self.version,
            channel: self.channel,
            level: self.level,
            opcode: self.opcode,
            task: self.task,
            keywords: self.keywords,
        }
    }
}
