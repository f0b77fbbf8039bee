//! The field codes, read from docs/FIELDS.md so that there is one table of them.

use std::collections::BTreeSet;
use std::sync::LazyLock;

pub struct Field {
    pub number: u32,
    /// The original's `what` text.
    pub text: &'static str,
    /// The answer codes that the field can come with.
    pub codes: Vec<u32>,
}

static FIELDS: LazyLock<Vec<Field>> = LazyLock::new(|| {
    include_str!("../../docs/FIELDS.md")
        .lines()
        .filter_map(row)
        .collect()
});

/// All rows of the table, in its order.
pub fn all() -> &'static [Field] {
    &FIELDS
}

/// A code and a field code.
pub type Pair = (u32, u32);

/// The pairs that can come in an answer: those of the table, acceptance, and the wrong signature,
/// which has no field.
pub fn promised() -> BTreeSet<Pair> {
    let mut pairs = BTreeSet::from([(0, 0), (2, 0)]);
    for field in all() {
        pairs.extend(field.codes.iter().map(|&code| (code, field.number)));
    }
    pairs
}

/// The number of the field with a text. A text that the table lacks is a fault
/// of the table, and stops the program.
pub fn number(text: &str) -> u32 {
    FIELDS
        .iter()
        .find(|field| field.text == text)
        .unwrap_or_else(|| panic!("docs/FIELDS.md has no text `{text}`"))
        .number
}

/// A line of the table: `| number | `text` | code, code or none | .. |`.
/// Any other line, the table's head too, gives nothing.
fn row(line: &'static str) -> Option<Field> {
    let mut cells = line.strip_prefix('|')?.split('|').map(str::trim);
    let number = cells.next()?.parse().ok()?;
    let text = cells.next()?.strip_prefix('`')?.strip_suffix('`')?;
    let codes = match cells.next()? {
        "none" => Vec::new(),
        codes => codes
            .split(", ")
            .map(|code| code.parse().expect("a code in docs/FIELDS.md is a number"))
            .collect(),
    };
    Some(Field {
        number,
        text,
        codes,
    })
}
