//! Why a block or an index isn't read, or nothing is done with what was read.

use std::fmt;

use crate::capacities::Capacities;
use crate::fields::Field;
use crate::list::List;
use crate::parts::Signature;

/// The most bytes that are read.
const LONGEST: u32 = 16_777_216;

/// The number that code 9 names an index by, which is no list of the block.
const INDEX: u64 = 15;

/// Why a block isn't read, or nothing is looked up in it, or its index isn't written or read back.
/// Places and offsets are bytes from the start of the block or of the index; only the offset of
/// `TEMP.template_items_offset (relative)` is counted from its template's start.
#[derive(Clone, Copy, Debug, PartialEq, Eq)]
#[non_exhaustive]
pub enum Refusal {
    /// Code 1: from a place on, so many bytes are needed and fewer are there.
    #[non_exhaustive]
    CutShort {
        /// What is cut short.
        field: Field,
        /// Where it starts.
        place: u64,
        /// How many bytes are needed.
        need: u64,
        /// How many are there.
        have: u64,
    },
    /// Code 2: a structure starts with another signature.
    #[non_exhaustive]
    WrongSignature {
        /// The structure's place.
        place: u64,
        /// What it has to start with.
        expected: Signature,
        /// What it starts with.
        found: Signature,
    },
    /// Code 3: the size of the structure at a place.
    #[non_exhaustive]
    BadSize {
        /// What the size is of.
        field: Field,
        /// The structure's place.
        place: u64,
        /// The size.
        size: u64,
    },
    /// Code 4: the count at a place.
    #[non_exhaustive]
    BadCount {
        /// What is counted.
        field: Field,
        /// The count's place.
        place: u64,
        /// The count.
        count: u64,
    },
    /// Code 5: an offset, and the length that it was held against.
    #[non_exhaustive]
    BadOffset {
        /// What the offset is of.
        field: Field,
        /// The offset.
        offset: u64,
        /// The length that it was held against.
        length: u64,
    },
    /// Code 6: the name at a place.
    #[non_exhaustive]
    NotUtf16 {
        /// What has the name.
        field: Field,
        /// The name's place.
        place: u64,
    },
    /// Code 7: more bytes than are read.
    TooLong,
    /// Code 8: a capacity over the limit, or fewer words than the capacities ask for.
    BadLending,
    /// Code 9: the block is right, but has more entries for a list than there is room. It is the
    /// lowest-numbered such list.
    #[non_exhaustive]
    ListTooSmall {
        /// The list.
        list: List,
        /// How many entries it has room for.
        capacity: u64,
    },
    /// Code 9 too: all else is right, but an index needs more bytes, or when it is read more words,
    /// than are lent.
    #[non_exhaustive]
    IndexTooSmall {
        /// How many bytes or words are lent.
        lent: u64,
    },
    /// Code 10: a lookup over lists that don't fit together, or in a range past its list; or an
    /// index of such lists.
    ListsApart,
    /// Code 15: the bytes run out before the last byte of a number.
    #[non_exhaustive]
    NumberCut {
        /// The place of its first byte; where that isn't there either, how many bytes there are.
        place: u64,
    },
    /// Code 16: a number with ten bytes of which none is the last, or in a longer form than its
    /// shortest, or past its width.
    #[non_exhaustive]
    BadNumber {
        /// The place of its first byte.
        place: u64,
    },
    /// Code 17: an edition that isn't read.
    #[non_exhaustive]
    OtherEdition {
        /// The edition's place.
        place: u64,
    },
    /// Code 18: bytes behind the last number.
    #[non_exhaustive]
    LeftOver {
        /// The place of the first of them.
        place: u64,
    },
    /// An answer of the library that there is no case for here.
    #[non_exhaustive]
    Other {
        /// The answer's code.
        code: u32,
        /// Its field, 0 if it has none.
        field: Field,
        /// Its place.
        place: u64,
        /// Its first number.
        first: u64,
        /// Its second number.
        second: u64,
    },
}

impl Refusal {
    /// The number of the refusal's code.
    pub fn code(&self) -> u32 {
        match self {
            Refusal::CutShort { .. } => 1,
            Refusal::WrongSignature { .. } => 2,
            Refusal::BadSize { .. } => 3,
            Refusal::BadCount { .. } => 4,
            Refusal::BadOffset { .. } => 5,
            Refusal::NotUtf16 { .. } => 6,
            Refusal::TooLong => 7,
            Refusal::BadLending => 8,
            Refusal::ListTooSmall { .. } | Refusal::IndexTooSmall { .. } => 9,
            Refusal::ListsApart => 10,
            Refusal::NumberCut { .. } => 15,
            Refusal::BadNumber { .. } => 16,
            Refusal::OtherEdition { .. } => 17,
            Refusal::LeftOver { .. } => 18,
            Refusal::Other { code, .. } => *code,
        }
    }

    /// What an answer with a code that isn't 0 says by its field, place and two numbers.
    pub(crate) fn new(code: u32, [field, place, first, second]: [u64; 4]) -> Refusal {
        let field = Field(field as u32);
        let other = Refusal::Other {
            code,
            field,
            place,
            first,
            second,
        };
        match code {
            1 => Refusal::CutShort {
                field,
                place,
                need: first,
                have: second,
            },
            2 => Refusal::WrongSignature {
                place,
                expected: Signature::from_word(first as u32),
                found: Signature::from_word(second as u32),
            },
            3 => Refusal::BadSize {
                field,
                place,
                size: first,
            },
            4 => Refusal::BadCount {
                field,
                place,
                count: first,
            },
            5 => Refusal::BadOffset {
                field,
                offset: place,
                length: first,
            },
            6 => Refusal::NotUtf16 { field, place },
            7 => Refusal::TooLong,
            8 => Refusal::BadLending,
            9 if first == INDEX => Refusal::IndexTooSmall { lent: second },
            9 => List::numbered(first).map_or(other, |list| Refusal::ListTooSmall {
                list,
                capacity: second,
            }),
            10 => Refusal::ListsApart,
            15 => Refusal::NumberCut { place },
            16 => Refusal::BadNumber { place },
            17 => Refusal::OtherEdition { place },
            18 => Refusal::LeftOver { place },
            _ => other,
        }
    }
}

impl fmt::Display for Refusal {
    fn fmt(&self, f: &mut fmt::Formatter<'_>) -> fmt::Result {
        match self {
            Refusal::CutShort {
                field,
                place,
                need,
                have,
            } => write!(
                f,
                "{field} at {place}: cut short, {need} bytes are needed and {have} are there"
            ),
            Refusal::WrongSignature {
                place,
                expected,
                found,
            } => write!(
                f,
                "signature at {place}: {found} is found where {expected} is expected"
            ),
            Refusal::BadSize { field, place, size } => {
                write!(f, "{field} at {place}: {size} is out of bounds")
            }
            Refusal::BadCount {
                field,
                place,
                count,
            } => write!(f, "{field} at {place}: a count of {count} is refused"),
            Refusal::BadOffset {
                field,
                offset,
                length,
            } => write!(
                f,
                "{field} at {offset}: this offset is out of bounds, the length is {length}"
            ),
            Refusal::NotUtf16 { field, place } => {
                write!(f, "{field} at {place}: the text is not UTF-16")
            }
            Refusal::TooLong => write!(f, "too long: at most {LONGEST} bytes are read"),
            Refusal::BadLending => write!(
                f,
                "a capacity is over {}, or fewer words are lent than the capacities ask for",
                Capacities::LIMIT
            ),
            Refusal::ListTooSmall { list, capacity } => write!(
                f,
                "list {} ({list}): there are more entries than its capacity of {capacity}",
                list.number()
            ),
            Refusal::IndexTooSmall { lent } => {
                write!(f, "the index: it needs more than the {lent} that are lent")
            }
            Refusal::ListsApart => write!(
                f,
                "the lists don't fit together, or the range is past its list"
            ),
            Refusal::NumberCut { place } => write!(
                f,
                "number at {place}: cut short, the bytes run out before its last one"
            ),
            Refusal::BadNumber { place } => write!(
                f,
                "number at {place}: ten bytes without a last one, longer than its shortest form, \
                 or past its width"
            ),
            Refusal::OtherEdition { place } => {
                write!(f, "edition at {place}: this edition isn't read")
            }
            Refusal::LeftOver { place } => {
                write!(f, "bytes from {place} on: left over behind the last number")
            }
            Refusal::Other {
                code,
                field,
                place,
                first,
                second,
            } => write!(
                f,
                "{field} at {place}: refused with code {code}, {first} and {second}"
            ),
        }
    }
}

impl std::error::Error for Refusal {}

#[cfg(test)]
mod tests {
    use super::*;

    #[test]
    fn what_has_no_case_here() {
        // A code, and the number of a list.
        for (code, first) in [
            (14, 7),
            (19, 7),
            (u32::MAX, 7),
            (9, 11),
            (9, 13),
            (9, 16),
            (9, 0),
            (9, u64::MAX),
        ] {
            let refusal = Refusal::new(code, [82, 76, first, 8]);
            let other = Refusal::Other {
                code,
                field: Field(82),
                place: 76,
                first,
                second: 8,
            };
            assert_eq!((refusal, refusal.code()), (other, code));
            assert_eq!(
                refusal.to_string(),
                format!("TEMP.size at 76: refused with code {code}, {first} and 8")
            );
        }
    }

    #[test]
    fn every_other_code_has_one() {
        for code in (1..=10).chain(15..=18) {
            let refusal = Refusal::new(code, [82, 76, 9, 8]);
            assert_eq!(refusal.code(), code);
            assert!(!matches!(refusal, Refusal::Other { .. }), "{refusal:?}");
        }
    }

    #[test]
    fn of_an_index() {
        let shown = [
            (
                Refusal::NumberCut { place: 76 },
                "number at 76: cut short, the bytes run out before its last one",
            ),
            (
                Refusal::BadNumber { place: 76 },
                "number at 76: ten bytes without a last one, longer than its shortest form, or past its width",
            ),
            (
                Refusal::OtherEdition { place: 76 },
                "edition at 76: this edition isn't read",
            ),
            (
                Refusal::LeftOver { place: 76 },
                "bytes from 76 on: left over behind the last number",
            ),
        ];
        for (code, (refusal, text)) in (15..).zip(shown) {
            assert_eq!(Refusal::new(code, [0, 76, 0, 0]), refusal);
            assert_eq!(refusal.to_string(), text);
        }
        // The index is no list of the block.
        let small = Refusal::new(9, [0, 0, 15, 8]);
        assert_eq!(
            (small, small.code()),
            (Refusal::IndexTooSmall { lent: 8 }, 9)
        );
        assert_eq!(
            small.to_string(),
            "the index: it needs more than the 8 that are lent"
        );
    }
}
