//! What entries are made of: GUIDs, signatures, names, parts of the block.

use std::fmt::{self, Write};

/// A GUID: its 16 bytes as they stand in the block.
#[derive(Clone, Copy, Debug, PartialEq, Eq, Hash)]
pub struct Guid(
    /// The bytes.
    pub [u8; 16],
);

impl Guid {
    pub(crate) fn from_words(words: [u32; 4]) -> Guid {
        let mut bytes = [0; 16];
        for (part, word) in bytes.chunks_exact_mut(4).zip(words) {
            part.copy_from_slice(&word.to_le_bytes());
        }
        Guid(bytes)
    }

    pub(crate) fn to_words(self) -> [u32; 4] {
        let mut words = [0; 4];
        for (word, part) in words.iter_mut().zip(self.0.chunks_exact(4)) {
            *word = u32::from_le_bytes([part[0], part[1], part[2], part[3]]);
        }
        words
    }
}

/// The usual form: three little-endian numbers, then bytes in order.
impl fmt::Display for Guid {
    fn fmt(&self, f: &mut fmt::Formatter<'_>) -> fmt::Result {
        let [a, b, c, d, e, g, h, i, rest @ ..] = self.0;
        let first = u32::from_le_bytes([a, b, c, d]);
        let (second, third) = (u16::from_le_bytes([e, g]), u16::from_le_bytes([h, i]));
        let [j, k, node @ ..] = rest;
        write!(f, "{first:08X}-{second:04X}-{third:04X}-{j:02X}{k:02X}-")?;
        node.iter().try_for_each(|byte| write!(f, "{byte:02X}"))
    }
}

/// Four bytes that say what stands behind them. Shown, bytes that are no letters are escaped.
#[derive(Clone, Copy, Debug, PartialEq, Eq, Hash)]
pub struct Signature(
    /// The bytes.
    pub [u8; 4],
);

impl Signature {
    pub(crate) fn from_word(word: u32) -> Signature {
        Signature(word.to_le_bytes())
    }
}

impl fmt::Display for Signature {
    fn fmt(&self, f: &mut fmt::Formatter<'_>) -> fmt::Result {
        write!(f, "{}", self.0.escape_ascii())
    }
}

/// A part of the block: where it starts, and its bytes.
#[derive(Clone, Copy, PartialEq, Eq, Hash)]
#[non_exhaustive]
pub struct Part<'a> {
    /// Its place.
    pub start: u32,
    /// Its bytes.
    pub bytes: &'a [u8],
}

impl<'a> Part<'a> {
    /// The reading says of each part that it lies in the block.
    pub(crate) fn of(block: &'a [u8], start: u32, length: u32) -> Part<'a> {
        let bytes = &block[start as usize..][..length as usize];
        Part { start, bytes }
    }
}

/// Without the bytes, which may be many.
impl fmt::Debug for Part<'_> {
    fn fmt(&self, f: &mut fmt::Formatter<'_>) -> fmt::Result {
        write!(f, "{} bytes at {}", self.bytes.len(), self.start)
    }
}

/// A name's text, in the block: 16-bit units. Shown, it is text, and ` (ran out)` behind it if no
/// zero unit ended it: who wants the text alone takes [`chars`](Name::chars).
///
/// Compared with a `str`, a name is its text alone. Of two names with the same text in the same
/// place, one that ended is not equal to one that ran out.
#[derive(Clone, Copy, PartialEq, Eq, Hash)]
#[non_exhaustive]
pub struct Name<'a> {
    /// Where the units stand.
    pub part: Part<'a>,
    pub(crate) ended: bool,
}

impl<'a> Name<'a> {
    /// The name of an entry; offset 0 says that there is none.
    pub(crate) fn of(
        block: &'a [u8],
        offset: u32,
        start: u32,
        units: u32,
        ended: u32,
    ) -> Option<Name<'a>> {
        (offset != 0).then(|| Name {
            part: Part::of(block, start, 2 * units),
            ended: ended == 1,
        })
    }

    /// Whether a zero unit ended the name. One without it ran out where its size says, and may not
    /// be complete, though nothing in its text tells.
    pub fn ended(&self) -> bool {
        self.ended
    }

    /// The units, without the zero unit that may end them. They are the text alone, whether it
    /// ended or ran out.
    pub fn units(&self) -> impl Iterator<Item = u16> + use<'a> {
        let pairs = self.part.bytes.chunks_exact(2);
        pairs.map(|pair| u16::from_le_bytes([pair[0], pair[1]]))
    }

    /// The characters: the text alone, whether it ended or ran out. The reading refuses units that
    /// are none, so of the block that was read nothing is replaced here.
    pub fn chars(&self) -> impl Iterator<Item = char> + use<'a> {
        char::decode_utf16(self.units()).map(|c| c.unwrap_or(char::REPLACEMENT_CHARACTER))
    }
}

/// What is shown behind the text of a name that ran out.
const RAN_OUT: &str = " (ran out)";

/// The text, marked if it ran out, so that nobody takes it for complete.
impl fmt::Display for Name<'_> {
    fn fmt(&self, f: &mut fmt::Formatter<'_>) -> fmt::Result {
        self.chars().try_for_each(|c| f.write_char(c))?;
        f.write_str(if self.ended { "" } else { RAN_OUT })
    }
}

/// The same with the text in quotes, and the mark behind them.
impl fmt::Debug for Name<'_> {
    fn fmt(&self, f: &mut fmt::Formatter<'_>) -> fmt::Result {
        write!(f, "{:?}", self.chars().collect::<String>())?;
        f.write_str(if self.ended { "" } else { RAN_OUT })
    }
}

/// Unit by unit, so that a name is equal to no other text than its own; whether it ended or ran
/// out is no part of that.
impl PartialEq<str> for Name<'_> {
    fn eq(&self, text: &str) -> bool {
        self.units().eq(text.encode_utf16())
    }
}

impl PartialEq<&str> for Name<'_> {
    fn eq(&self, text: &&str) -> bool {
        self == *text
    }
}
