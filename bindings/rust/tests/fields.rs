//! The field texts, against those of docs/FIELDS.md.

use std::collections::BTreeMap;

use ducatfeather::Field;

const DOCUMENT: &str = include_str!("../../../docs/FIELDS.md");

/// A line of the document's table: `| code | `text` | .. |`. Any other line gives nothing.
fn row(line: &str) -> Option<(u32, &str)> {
    let mut cells = line.strip_prefix("| ")?.split(" | ");
    let code = cells.next()?.parse().ok()?;
    let text = cells.next()?.strip_prefix('`')?.strip_suffix('`')?;
    Some((code, text))
}

#[test]
fn they_are_those_of_the_document() {
    let rows: Vec<(u32, &str)> = DOCUMENT.lines().filter_map(row).collect();
    let texts: BTreeMap<u32, &str> = rows.iter().copied().collect();
    assert_eq!(rows.len(), texts.len(), "a code stands there twice");
    assert_eq!(texts[&80], "TEMP header");
    for code in 0..=u32::from(u16::MAX) {
        assert_eq!(
            Field(code).text(),
            texts.get(&code).copied(),
            "field {code}"
        );
    }
}

#[test]
fn a_field_is_shown_by_its_text() {
    assert_eq!(Field(82).to_string(), "TEMP.size");
    assert_eq!(Field(0).to_string(), "field 0");
    assert_eq!(Field(u32::MAX).to_string(), "field 4294967295");
}
