//! Stands where the original calls its `parse_template_items`: the items are read as `items.rs` has
//! it. If asked to, it notes of each template what either says, so that every difference can be told,
//! also behind the first one, where the original itself has stopped.

use std::cell::RefCell;

use super::error::Result;
use super::items::items;
use super::types::TemplateItem;

/// What is said of one template's items.
pub struct Note {
    /// The TEMP's place, and its end.
    pub temp: u32,
    pub end: u32,
    /// Its words that say how many items there are, and where.
    pub count: u32,
    pub offset: u32,
    pub original: Result<Vec<TemplateItem>>,
    pub amended: Result<Vec<TemplateItem>>,
}

thread_local! {
    static NOTES: RefCell<Option<Vec<Note>>> = const { RefCell::new(None) };
}

/// Does a reading, and gives with it what was noted, in reading order.
pub fn noting<T>(reading: impl FnOnce() -> T) -> (T, Vec<Note>) {
    NOTES.set(Some(Vec::new()));
    let done = reading();
    (done, NOTES.take().unwrap_or_default())
}

/// Is given the original's function, the blob, and what the original calls the function with.
pub(super) fn read(
    original: impl FnOnce(&[u8], u32, u32, u32) -> Result<Vec<TemplateItem>>,
    crim: &[u8],
    template: &[u8],
    temp: u32,
    count: u32,
    offset: u32,
) -> Result<Vec<TemplateItem>> {
    let end = temp + template.len() as u32;
    let amended = || items(crim, temp, end, count, offset);
    NOTES.with_borrow_mut(|notes| {
        if let Some(notes) = notes {
            notes.push(Note {
                temp,
                end,
                count,
                offset,
                original: original(template, temp, count, offset),
                amended: amended(),
            });
        }
    });
    amended()
}
