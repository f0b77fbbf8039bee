//! Where the original answers otherwise than the port must: the cases that docs/DIFFERENCES.md lists
//! of template items, told from what the original refuses and from the blob.

use std::fmt;

use crate::Answer;
use crate::amended::convert::{Lists, from_error};
use crate::amended::reader::wevt_templates::manifest::notes::{Note, noting};
use crate::amended::reader::wevt_templates::manifest::{TemplateItem, WevtManifestError};
use crate::lists::{ITEMS, row_of};
use crate::temp::Temp;

/// The cases, in the order of the document. `temp.rs` tells them.
#[derive(Clone, Copy, Debug, PartialEq, Eq)]
pub enum Case {
    /// No items, and an items offset that is neither 0 nor the TEMP's end.
    OffsetWithoutItems,
    /// Items, and an items offset of 0.
    OffsetZero,
    /// Items that start in the TEMP's header.
    InHeader,
    /// Items that start at the TEMP's end.
    AtEnd,
    /// A name before the TEMP: the number is another.
    NameBefore,
    /// A name past the TEMP's end: field, place and number are others.
    NamePast,
    /// A name before or past the TEMP, behind an item whose name is refused: that one comes first here.
    NameLater,
    /// A name before the items' end.
    NameBeforeItemsEnd,
    /// A name that both refuse: the place is another.
    NamePlace,
}

impl Case {
    pub const ALL: [Case; 9] = [
        Case::OffsetWithoutItems,
        Case::OffsetZero,
        Case::InHeader,
        Case::AtEnd,
        Case::NameBefore,
        Case::NamePast,
        Case::NameLater,
        Case::NameBeforeItemsEnd,
        Case::NamePlace,
    ];
}

/// As the document has it.
impl fmt::Display for Case {
    fn fmt(&self, f: &mut fmt::Formatter<'_>) -> fmt::Result {
        f.write_str(match self {
            Case::OffsetWithoutItems => "an items offset without items",
            Case::OffsetZero => "items at offset 0",
            Case::InHeader => "items in the TEMP's header",
            Case::AtEnd => "items at the TEMP's end",
            Case::NameBefore => "a name before the TEMP",
            Case::NamePast => "a name past the TEMP",
            Case::NameLater => "a name outside the TEMP behind a refused one",
            Case::NameBeforeItemsEnd => "a name before the items' end",
            Case::NamePlace => "the place of a refused name",
        })
    }
}

/// What both answer, and which case it is if that isn't the same.
pub struct Compared {
    pub answer: Answer,
    pub original: Answer,
    pub case: Option<Case>,
}

/// Answers a blob in both ways. Says what differs if that is none of the cases.
pub fn compare(blob: &[u8]) -> Result<Compared, String> {
    let original = crate::original(blob);
    let (answer, notes) = noting(|| crate::answer(blob));
    let mut first = None;
    for note in &notes {
        let [theirs, ours] = [&note.original, &note.amended].map(|of| said(blob, of));
        if theirs == ours {
            continue;
        }
        let Err(refused) = theirs else {
            return Err(unlisted(note, &theirs, &ours));
        };
        let Some(case) = Temp::new(blob, note).case(&refused, &ours) else {
            return Err(unlisted(note, &Err(refused), &ours));
        };
        first.get_or_insert((case, refused));
    }
    // The original goes no further than the first that it refuses; up to there it is the same.
    let (case, expected) = match first {
        Some((case, refused)) => (Some(case), refused),
        None => (None, answer.clone()),
    };
    if original != expected {
        return Err(format!(
            "the original answers\n{original}where this was to come:\n{expected}"
        ));
    }
    Ok(Compared {
        answer,
        original,
        case,
    })
}

fn unlisted(note: &Note, theirs: &Said, ours: &Said) -> String {
    format!(
        "the items of the TEMP at {}: the original says {theirs:?}, and here it is {ours:?}, which is no case of \
         docs/DIFFERENCES.md",
        note.temp
    )
}

/// What is said of a template's items: their entries' words, with 0 for the template's number, or a
/// refusal.
pub type Said = Result<Vec<u32>, Answer>;

fn said(blob: &[u8], of: &Result<Vec<TemplateItem>, WevtManifestError>) -> Said {
    let items = of.as_ref().map_err(from_error)?;
    let mut lists = Lists::new(blob);
    lists.items(0, items);
    Ok(std::mem::take(&mut lists.words[row_of(ITEMS)]))
}
