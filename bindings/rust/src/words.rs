//! How an entry is read from its words.

use std::ops::Range;

use crate::entry::{
    Definition, Descriptor, Event, Item, Kind, Map, MapEntry, MapKind, Provider, Table, Template,
    UnknownElement,
};
use crate::items::ItemsOf;
use crate::parts::{Guid, Name, Part, Signature};

/// What entries lead to.
#[derive(Clone, Copy)]
pub struct Source<'a> {
    /// The block that they were read from.
    pub(crate) block: &'a [u8],
    /// The words of the list of items.
    pub(crate) items: &'a [u32],
}

/// The words of one entry, as many as the list's entries have.
pub struct Words<'a> {
    /// The entry's number in its list.
    pub(crate) number: usize,
    pub(crate) words: &'a [u32],
    pub(crate) source: Source<'a>,
}

/// What can be read from the words of an entry. Other crates can't name this trait, and so can't
/// add to those that need it; nor can they make words, and so can't call it.
pub trait FromWords<'a>: Sized {
    /// The entry of these words.
    fn from_words(words: Words<'a>) -> Self;
}

/// A message's number; the highest there is says that there is none.
fn message(word: u32) -> Option<u32> {
    (word != u32::MAX).then_some(word)
}

/// An offset in an event; 0 says that there is none.
fn offset(word: u32) -> Option<u32> {
    (word != 0).then_some(word)
}

/// A number of two words.
pub(crate) fn long(low: u32, high: u32) -> u64 {
    u64::from(low) | u64::from(high) << 32
}

/// Numbers of entries, from the first on.
fn numbers(first: u32, count: u32) -> Range<usize> {
    first as usize..first as usize + count as usize
}

/// The entry's words, by their number.
fn exactly<const N: usize>(words: &Words<'_>) -> [u32; N] {
    words.words.try_into().expect("an entry's words")
}

impl Kind {
    fn from_word(word: u32) -> Kind {
        match word {
            1 => Kind::Chan,
            2 => Kind::Evnt,
            3 => Kind::Keyw,
            4 => Kind::Levl,
            5 => Kind::Maps,
            6 => Kind::Opco,
            7 => Kind::Task,
            8 => Kind::Ttbl,
            _ => unreachable!("there is no kind {word}"),
        }
    }
}

impl FromWords<'_> for Provider {
    fn from_words(words: Words<'_>) -> Provider {
        let [
            a,
            b,
            c,
            d,
            offset,
            size,
            text,
            descriptor_count,
            unknown2_count,
        ] = exactly(&words);
        Provider {
            guid: Guid::from_words([a, b, c, d]),
            offset,
            size,
            message: message(text),
            descriptor_count,
            unknown2_count,
        }
    }
}

impl FromWords<'_> for Descriptor {
    fn from_words(words: Words<'_>) -> Descriptor {
        let [offset, unknown, signature] = exactly(&words);
        Descriptor {
            offset,
            unknown,
            signature: Signature::from_word(signature),
        }
    }
}

impl FromWords<'_> for u32 {
    fn from_words(words: Words<'_>) -> u32 {
        let [word] = exactly(&words);
        word
    }
}

impl<'a> FromWords<'a> for Table<'a> {
    fn from_words(words: Words<'a>) -> Table<'a> {
        let [
            provider,
            kind,
            offset,
            size,
            extra,
            first,
            count,
            start,
            length,
        ] = exactly(&words);
        Table {
            provider,
            kind: Kind::from_word(kind),
            offset,
            size,
            extra,
            entries: numbers(first, count),
            trailing: Part::of(words.source.block, start, length),
        }
    }
}

impl<'a> FromWords<'a> for Definition<'a> {
    fn from_words(words: Words<'a>) -> Definition<'a> {
        let [
            kind,
            low,
            high,
            text,
            offset,
            start,
            units,
            unknown,
            mui @ ..,
            ended,
        ] = exactly::<13>(&words);
        Definition {
            kind: Kind::from_word(kind),
            identifier: long(low, high),
            message: message(text),
            name_offset: offset,
            name: Name::of(words.source.block, offset, start, units, ended),
            unknown,
            mui: Guid::from_words(mui),
        }
    }
}

impl FromWords<'_> for Event {
    fn from_words(words: Words<'_>) -> Event {
        let [
            identifier,
            version,
            channel,
            level,
            opcode,
            task,
            low,
            high,
            message,
            template_offset,
            opcode_offset,
            level_offset,
            task_offset,
            unknown_count,
            unknown_offset,
            flags,
        ] = exactly(&words);
        // The narrow fields were read from one or two bytes.
        Event {
            identifier: identifier as u16,
            version: version as u8,
            channel: channel as u8,
            level: level as u8,
            opcode: opcode as u8,
            task: task as u16,
            keywords: long(low, high),
            message,
            template_offset: offset(template_offset),
            opcode_offset: offset(opcode_offset),
            level_offset: offset(level_offset),
            task_offset: offset(task_offset),
            unknown_count,
            unknown_offset,
            flags,
        }
    }
}

impl<'a> FromWords<'a> for Map<'a> {
    fn from_words(words: Words<'a>) -> Map<'a> {
        let [
            kind,
            signature,
            offset,
            size,
            string_offset,
            name_start,
            name_units,
            first,
            count,
            start,
            length,
            ended,
        ] = exactly(&words);
        Map {
            kind: match kind {
                1 => MapKind::Vmap,
                2 => MapKind::Bmap,
                _ => MapKind::Other,
            },
            signature: Signature::from_word(signature),
            offset,
            size,
            string_offset,
            name: Name::of(
                words.source.block,
                string_offset,
                name_start,
                name_units,
                ended,
            ),
            entries: numbers(first, count),
            data: Part::of(words.source.block, start, length),
        }
    }
}

impl FromWords<'_> for MapEntry {
    fn from_words(words: Words<'_>) -> MapEntry {
        let [identifier, text] = exactly(&words);
        MapEntry {
            identifier,
            message: message(text),
        }
    }
}

impl<'a> FromWords<'a> for Template<'a> {
    fn from_words(words: Words<'a>) -> Template<'a> {
        let [
            provider,
            offset,
            size,
            item_descriptor_count,
            item_name_count,
            items_offset,
            event_type,
            a,
            b,
            c,
            d,
            start,
            length,
        ] = exactly(&words);
        Template {
            provider,
            offset,
            size,
            item_descriptor_count,
            item_name_count,
            items_offset,
            event_type,
            guid: Guid::from_words([a, b, c, d]),
            binxml: Part::of(words.source.block, start, length),
            items: ItemsOf {
                template: words.number as u32,
                count: item_descriptor_count as usize,
                source: words.source,
            },
        }
    }
}

impl<'a> FromWords<'a> for UnknownElement<'a> {
    fn from_words(words: Words<'a>) -> UnknownElement<'a> {
        let [provider, signature, offset, size] = exactly(&words);
        UnknownElement {
            provider,
            signature: Signature::from_word(signature),
            offset,
            size,
            data: Part::of(words.source.block, offset, size),
        }
    }
}

impl<'a> FromWords<'a> for Item<'a> {
    fn from_words(words: Words<'a>) -> Item<'a> {
        let [
            template,
            unknown1,
            types,
            unknown3,
            unknown4,
            count_and_length,
            offset,
            start,
            units,
            ended,
        ] = exactly(&words);
        // The narrow fields were read from one or two bytes.
        let [input_type, output_type, ..] = types.to_le_bytes();
        Item {
            template,
            unknown1,
            input_type,
            output_type,
            unknown3: unknown3 as u16,
            unknown4,
            count: count_and_length as u16,
            length: (count_and_length >> 16) as u16,
            name_offset: offset,
            name: Name::of(words.source.block, offset, start, units, ended),
        }
    }
}
