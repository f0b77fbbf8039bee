//! What a block holds.

use std::borrow::Cow;
use std::ops::Range;

use crate::capacities::Capacities;
use crate::entries::{Entries, Entry};
use crate::entry::{
    Definition, Descriptor, Event, Item, Map, MapEntry, Provider, Table, Template, UnknownElement,
};
use crate::key::Key;
use crate::list::List;
use crate::parts::Guid;
use crate::raw;
use crate::read::Accepted;
use crate::refusal::Refusal;
use crate::words::Source;

/// What an accepted block holds: its lists.
#[derive(Clone, Debug)]
pub struct Manifest<'a> {
    /// The first `CRIM.size` bytes of what was lent.
    block: &'a [u8],
    version: (u16, u16),
    words: Cow<'a, [u32]>,
    /// What it was read with.
    capacities: Capacities,
    /// How many entries each list has.
    counts: Capacities,
}

impl<'a> Manifest<'a> {
    pub(crate) fn new(
        blob: &'a [u8],
        words: Cow<'a, [u32]>,
        capacities: Capacities,
        answer: &Accepted,
    ) -> Manifest<'a> {
        Manifest {
            block: &blob[..answer.size],
            version: answer.version,
            words,
            capacities,
            counts: answer.counts,
        }
    }

    /// The block itself, without what was lent behind it.
    pub fn block(&self) -> &'a [u8] {
        self.block
    }

    /// The major and the minor version.
    pub fn version(&self) -> (u16, u16) {
        self.version
    }

    /// The providers, in the block's order. All other lists run provider by provider.
    pub fn providers(&self) -> Entries<'_, Provider> {
        self.list()
    }

    /// The descriptors of the providers' elements.
    pub fn descriptors(&self) -> Entries<'_, Descriptor> {
        self.list()
    }

    /// The unknown2 words.
    pub fn unknown2(&self) -> Entries<'_, u32> {
        self.list()
    }

    /// The tables: of each provider at most one of a kind, by their kinds.
    pub fn tables(&self) -> Entries<'_, Table<'_>> {
        self.list()
    }

    /// The channels, keywords, levels, opcodes and tasks.
    pub fn definitions(&self) -> Entries<'_, Definition<'_>> {
        self.list()
    }

    /// The events.
    pub fn events(&self) -> Entries<'_, Event> {
        self.list()
    }

    /// The maps.
    pub fn maps(&self) -> Entries<'_, Map<'_>> {
        self.list()
    }

    /// The entries of the maps.
    pub fn map_entries(&self) -> Entries<'_, MapEntry> {
        self.list()
    }

    /// The templates.
    pub fn templates(&self) -> Entries<'_, Template<'_>> {
        self.list()
    }

    /// The elements that are no tables of a known kind.
    pub fn unknown_elements(&self) -> Entries<'_, UnknownElement<'_>> {
        self.list()
    }

    /// The items of all templates, by their templates' numbers: those of the first template, then
    /// those of the second, and so on. [`Template::items`] gives the items of one.
    pub fn items(&self) -> Entries<'_, Item<'_>> {
        self.list()
    }

    /// The number of a provider's lowest template at an offset, among those that these are the
    /// numbers of; nothing if there is none, nor any of a number that no provider has. A range
    /// past the list is refused.
    ///
    /// An event's template is its provider's at its template offset, among the entries of its
    /// provider's TTBL.
    pub fn template_at(
        &self,
        provider: u32,
        entries: Range<usize>,
        offset: u32,
    ) -> Result<Option<usize>, Refusal> {
        // A number too high for 32 bits is past any list, as the highest of them is.
        let [first, count] = [entries.start, entries.end.saturating_sub(entries.start)]
            .map(|number| u32::try_from(number).unwrap_or(u32::MAX));
        let mut answer = [0; raw::TEMPLATE_NUMBERS];
        let code = raw::ducat_template_at(
            &self.words,
            self.capacities.in_order(),
            self.counts.in_order(),
            provider,
            first,
            count,
            offset,
            &mut answer,
        );
        let [_, place, first, second, found, number] = answer;
        match code {
            0 => Ok((found == 1).then_some(number as usize)),
            _ => Err(Refusal::new(code, [0, place, first, second])),
        }
    }

    /// The GUIDs of the templates of the events with a key, each once, in first-seen order; none
    /// if there is no such event, or none with a template. All providers with the key's GUID are
    /// gone through, in their order; an event's template is looked for in its own provider's alone.
    ///
    /// The library keeps a mark for each template: about 70 KB of stack are used.
    pub fn templates_for(&self, key: &Key) -> Result<Vec<Guid>, Refusal> {
        // There are hardly ever more than a few, and never more than there are templates.
        let most = self.templates().len();
        match self.guids_for(key, most.min(8)) {
            Err(refusal) if refusal.code() == 9 => self.guids_for(key, most),
            answer => answer,
        }
    }

    /// The same, with room for so many; code 9 if there are more.
    fn guids_for(&self, key: &Key, room: usize) -> Result<Vec<Guid>, Refusal> {
        let mut guids = vec![0; raw::GUID_WORDS * room];
        let mut answer = [0; raw::GUIDS_NUMBERS];
        let code = raw::ducat_templates_for(
            &self.words,
            self.capacities.in_order(),
            self.counts.in_order(),
            &key.words(),
            &mut guids,
            &mut answer,
        );
        let [_, place, first, second, given] = answer;
        match code {
            0 => {
                let (guids, _) = guids.as_chunks();
                let given = &guids[..given as usize];
                Ok(given.iter().copied().map(Guid::from_words).collect())
            }
            _ => Err(Refusal::new(code, [0, place, first, second])),
        }
    }

    /// The index of every event with a found template, to be kept beside a log:
    /// [`Index::read`](crate::Index::read) reads it back. An event's template is looked for in its
    /// own provider's alone; entries stand in the order of [`events`](Manifest::events).
    ///
    /// The library keeps a number for each event: about 330 KB of stack are used.
    pub fn write_index(&self) -> Result<Vec<u8>, Refusal> {
        // 7 for the edition and two counts up to 65,536, 5 for a provider, and for an entry what its
        // numbers can need: 3, 3, 2, 2, 2, 2, 3, 10 and 5.
        let mut bytes = vec![0; 7 + 5 * self.providers().len() + 32 * self.events().len()];
        let written = self.write_index_into(&mut bytes)?;
        bytes.truncate(written);
        Ok(bytes)
    }

    /// The same into lent bytes; how many of them it takes. The bytes behind it keep their values,
    /// and on a refusal all do.
    pub fn write_index_into(&self, bytes: &mut [u8]) -> Result<usize, Refusal> {
        let mut answer = [0; raw::INDEX_NUMBERS];
        let code = raw::ducat_index_write(
            &self.words,
            self.capacities.in_order(),
            self.counts.in_order(),
            bytes,
            &mut answer,
        );
        let [_, place, first, second, written] = answer;
        match code {
            0 => Ok(written as usize),
            _ => Err(Refusal::new(code, [0, place, first, second])),
        }
    }

    /// The words of a list, as they stand.
    pub fn words(&self, list: List) -> &[u32] {
        let entries = self.counts.of(list) as usize;
        &self.words[self.capacities.start(list)..][..list.words() * entries]
    }

    fn list<'m, T: Entry<'m>>(&'m self) -> Entries<'m, T> {
        let source = Source {
            block: self.block,
            items: self.words(List::Items),
        };
        Entries::new(self.words(T::LIST), source)
    }
}

#[cfg(test)]
mod tests {
    use crate::{needs, read};

    #[test]
    fn as_many_words_are_allocated_as_are_needed() {
        let t = include_bytes!("../../../samples/t.bin");
        // A provider, a descriptor, a table and a template.
        assert_eq!(read(t).unwrap().words.len(), 9 + 3 + 9 + 13);
        let drive = include_bytes!("../../../samples/drive.crim");
        let manifest = read(drive).unwrap();
        assert_eq!(needs(drive), Ok(manifest.counts));
        assert_eq!(manifest.capacities, manifest.counts);
        assert_eq!(Some(manifest.words.len()), manifest.counts.words());
    }
}
