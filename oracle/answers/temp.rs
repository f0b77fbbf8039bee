//! A TEMP whose items the original refuses: which of the cases it is of.

use crate::amended::reader::wevt_templates::manifest::notes::Note;
use crate::differences::{Case, Said};
use crate::lists::{ITEMS, ROWS, row_of};
use crate::{Answer, fields, refusal};

const NAME: &str = "template item name";

/// A TEMP whose items the original refuses.
pub struct Temp {
    /// CRIM.size.
    blob_length: u32,
    place: u32,
    end: u32,
    count: u32,
    /// Where its items start, and the word that says so.
    start: u32,
    offset: u32,
    /// The name offsets of its items, or nothing if they aren't all in the TEMP.
    names: Option<Vec<u32>>,
}

impl Temp {
    pub fn new(blob: &[u8], note: &Note) -> Temp {
        let word = |at: usize| u32::from_le_bytes(blob[at..at + 4].try_into().expect("four bytes"));
        let &Note {
            temp: place,
            end,
            count,
            offset,
            ..
        } = note;
        let start = if offset == 0 { end } else { offset };
        let fits = count <= (end - start) / 20;
        let name = |i: u32| word((start + 20 * i + 16) as usize);
        Temp {
            blob_length: word(4),
            place,
            end,
            count,
            start,
            offset,
            names: fits.then(|| (0..count).map(name).collect()),
        }
    }

    /// Which case it is that the original says this of the items, and that it is so here.
    pub fn case(&self, theirs: &Answer, ours: &Said) -> Option<Case> {
        let (case, refused, read) = self.told(ours)?;
        (read && *theirs == refused).then_some(case)
    }

    /// The case, what the original says in it, and whether the items are read as they must be.
    fn told(&self, ours: &Said) -> Option<(Case, Answer, bool)> {
        let &Temp {
            place, end, offset, ..
        } = self;
        if self.count == 0 {
            let refused = five(
                "TEMP.template_items_offset (expected 0 or end-of-template when item_descriptor_count==0)",
                offset,
                end,
            );
            return Some((Case::OffsetWithoutItems, refused, *ours == Ok(vec![])));
        }
        if offset == 0 {
            let refused = five("TEMP.template_items_offset", 0, end);
            return Some((Case::OffsetZero, refused, self.array_refused(ours)));
        }
        if offset < place + 40 || offset == end {
            let case = if offset == end {
                Case::AtEnd
            } else {
                Case::InHeader
            };
            let refused = five("TEMP.template_items_offset (relative)", offset, end);
            let read = match &self.names {
                Some(names) => self.names_read(names, ours),
                None => self.array_refused(ours),
            };
            return Some((case, refused, read));
        }
        // Items that aren't all in the TEMP are refused alike.
        let names = self.names.as_ref()?;
        if let Some(i) = names.iter().position(|&name| self.outside(name)) {
            let name = names[i];
            let (case, refused, here) = if name < place {
                let what = "template item name_offset";
                (
                    Case::NameBefore,
                    five(what, name, end),
                    five(what, name, self.blob_length),
                )
            } else {
                let what = "template item name_offset (relative)";
                (
                    Case::NamePast,
                    five(what, name - place, end - place),
                    five(NAME, name, end),
                )
            };
            let ours = ours.as_ref().err()?;
            return match *ours == here {
                true => Some((case, refused, true)),
                false => Some((
                    Case::NameLater,
                    refused,
                    self.name_refused(&names[..i], ours),
                )),
            };
        }
        let lowest = names.iter().copied().filter(|&name| name != 0).min()?;
        if lowest < self.start + 20 * self.count {
            let what = "template item name_offset overlaps descriptor table";
            let read = self.names_read(names, ours);
            return Some((Case::NameBeforeItemsEnd, five(what, lowest, end), read));
        }
        let ours = ours.as_ref().err()?;
        let refused = Answer {
            place: ours.place.checked_sub(place)?,
            ..ours.clone()
        };
        Some((Case::NamePlace, refused, self.name_refused(names, ours)))
    }

    /// Whether the items are refused as a whole.
    fn array_refused(&self, ours: &Said) -> bool {
        let field = fields::number("template item descriptors");
        let [need, have] = [20 * u64::from(self.count), (self.end - self.start).into()];
        *ours == Err(refusal(1, field, self.start, need, have))
    }

    /// Whether all items are read, or one is refused for its name.
    fn names_read(&self, names: &[u32], ours: &Said) -> bool {
        let outside = names.iter().position(|&name| self.outside(name));
        match (ours, outside) {
            (Ok(words), None) => {
                let entries = words.chunks(ROWS[row_of(ITEMS)].words);
                entries.map(|entry| entry[6]).eq(names.iter().copied())
            }
            (Ok(_), Some(_)) => false,
            (Err(refused), None) => self.name_refused(names, refused),
            (Err(refused), Some(i)) => self.name_refused(&names[..=i], refused),
        }
    }

    /// Whether there is a name, and it starts before the TEMP or past it.
    fn outside(&self, name: u32) -> bool {
        name != 0 && !(self.place..=self.end).contains(&name)
    }

    /// Whether one of these names is refused, in a way in which one at its place can be.
    fn name_refused(&self, names: &[u32], refused: &Answer) -> bool {
        let name = refused.place;
        let right = if name < self.place {
            *refused == five("template item name_offset", name, self.blob_length)
        } else if name > self.end {
            *refused == five(NAME, name, self.end)
        } else {
            [1, 3, 6].contains(&refused.code) && refused.field == fields::number(NAME)
        };
        right && names.contains(&name)
    }
}

/// An offset that is past a length, or before what it should be in.
fn five(what: &str, offset: u32, length: u32) -> Answer {
    refusal(5, fields::number(what), offset, length.into(), 0)
}
