//! An index of a block's events, read back.

use crate::raw;
use crate::refusal::Refusal;
use crate::words::long;

/// An index of every event with a found template, which is kept beside a log. It knows its providers
/// by their numbers in the block, and has no GUID: nothing in it says which block it was written from.
///
/// ```
/// let block = std::fs::read("../../samples/drive.crim")?;
/// let bytes = ducatfeather::read(&block)?.write_index()?;
/// // On another day, without the block:
/// let index = ducatfeather::Index::read(&bytes)?;
/// for entry in &index {
///     println!("event {}: template {}", entry.event_id, entry.template_offset);
/// }
/// assert_eq!(index.len(), 9);
/// # Ok::<(), Box<dyn std::error::Error>>(())
/// ```
///
/// No two byte strings are read as the same index.
#[derive(Clone, Debug, PartialEq, Eq, Hash)]
pub struct Index {
    unknown2_counts: Vec<u32>,
    entries: Vec<IndexEntry>,
}

/// An entry of an index: an event, and where its template is.
#[derive(Clone, Copy, Debug, PartialEq, Eq, Hash)]
#[non_exhaustive]
pub struct IndexEntry {
    /// The number of the provider that the event belongs to, as it was written: it isn't held
    /// against how many providers there are.
    pub provider: u32,
    /// The event's identifier, which a log has too, as the six below.
    pub event_id: u16,
    /// Its version.
    pub version: u8,
    /// Its channel.
    pub channel: u8,
    /// Its level.
    pub level: u8,
    /// Its opcode.
    pub opcode: u8,
    /// Its task.
    pub task: u16,
    /// Its keywords, a bit for each.
    pub keywords: u64,
    /// The place of its template in the block.
    pub template_offset: u32,
}

impl Index {
    /// Reads an index that [`Manifest::write_index`](crate::Manifest::write_index) wrote. These are
    /// all its bytes: any behind them are refused.
    pub fn read(bytes: &[u8]) -> Result<Index, Refusal> {
        // Each number has a byte, and one in nine, the keywords, has two words.
        let mut words = vec![0; bytes.len() + bytes.len() / 9];
        let mut answer = [0; raw::INDEX_NUMBERS];
        let code = raw::ducat_index_read(bytes, &mut words, &mut answer);
        let [_, place, first, second, given] = answer;
        match code {
            0 => Ok(Index::from_words(&words[..given as usize])),
            _ => Err(Refusal::new(code, [0, place, first, second])),
        }
    }

    /// The words are all that a reading gives.
    fn from_words(words: &[u32]) -> Index {
        let (counts, entries) = words[1..].split_at(words[0] as usize);
        let (entries, _) = entries[1..].as_chunks();
        Index {
            unknown2_counts: counts.to_vec(),
            entries: entries
                .iter()
                .copied()
                .map(IndexEntry::from_words)
                .collect(),
        }
    }

    /// How many unknown2 words each provider of the block has: a number for each provider.
    pub fn unknown2_counts(&self) -> &[u32] {
        &self.unknown2_counts
    }

    /// The entries, in the order of the block's events.
    pub fn entries(&self) -> &[IndexEntry] {
        &self.entries
    }

    /// How many entries there are.
    pub fn len(&self) -> usize {
        self.entries.len()
    }

    /// Whether there are none.
    pub fn is_empty(&self) -> bool {
        self.entries.is_empty()
    }
}

/// Goes through the entries.
impl<'a> IntoIterator for &'a Index {
    type Item = &'a IndexEntry;
    type IntoIter = std::slice::Iter<'a, IndexEntry>;

    fn into_iter(self) -> Self::IntoIter {
        self.entries.iter()
    }
}

impl IndexEntry {
    fn from_words(words: [u32; raw::INDEX_ENTRY_WORDS]) -> IndexEntry {
        let [
            provider,
            event_id,
            version,
            channel,
            level,
            opcode,
            task,
            low,
            high,
            template_offset,
        ] = words;
        // The reading refuses what is past the width of a narrow field.
        IndexEntry {
            provider,
            event_id: event_id as u16,
            version: version as u8,
            channel: channel as u8,
            level: level as u8,
            opcode: opcode as u8,
            task: task as u16,
            keywords: long(low, high),
            template_offset,
        }
    }
}
