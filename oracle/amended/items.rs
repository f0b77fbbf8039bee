//! The items of a template as request 01 has them read: an account of its own, from the request's
//! words, with the original's reader of sized names.

use super::error::Result;
use super::types::TemplateItem;
use super::util::{
    off_err, read_sized_utf16_string, read_u8_named, read_u16_named, read_u32_named, require_len,
};

/// The bytes of an item.
const ITEM: usize = 20;

/// The items of the TEMP from `temp` to `end`: `count` of them from `offset` on, or from the TEMP's
/// end if that is 0.
pub(super) fn items(
    crim: &[u8],
    temp: u32,
    end: u32,
    count: u32,
    offset: u32,
) -> Result<Vec<TemplateItem>> {
    // The blob as if it ended with the TEMP. What stands in it stands at the same place of the blob.
    let within = &crim[..end as usize];
    let start = if offset == 0 { end } else { offset } as usize;
    let count = count as usize;
    require_len(within, start, ITEM * count, "template item descriptors")?;
    let items = (0..count).map(|i| item(within, start + ITEM * i, temp, crim.len()));
    items.collect()
}

/// The item at a place, with its whole name.
fn item(within: &[u8], at: usize, temp: u32, blob_length: usize) -> Result<TemplateItem> {
    let name_offset = read_u32_named(within, at + 16, "TEMP.item.name_offset")?;
    let name = if name_offset == 0 {
        None
    } else if name_offset < temp {
        return Err(off_err(
            "template item name_offset",
            name_offset,
            blob_length,
        ));
    } else {
        let name = read_sized_utf16_string(within, name_offset, "template item name")?;
        Some(name)
    };
    Ok(TemplateItem {
        unknown1: read_u32_named(within, at, "TEMP.item.unknown1")?,
        input_type: read_u8_named(within, at + 4, "TEMP.item.input_type")?,
        output_type: read_u8_named(within, at + 5, "TEMP.item.output_type")?,
        unknown3: read_u16_named(within, at + 6, "TEMP.item.unknown3")?,
        unknown4: read_u32_named(within, at + 8, "TEMP.item.unknown4")?,
        count: read_u16_named(within, at + 12, "TEMP.item.count")?,
        length: read_u16_named(within, at + 14, "TEMP.item.length")?,
        name_offset,
        name,
    })
}
