//! A name of each sort in each kind of entry that can have one, and maps that can't.

use crate::draft::Draft;

/// The blobs. In each the first entry's name is ended by a zero unit, the second's runs out, the
/// third's is of size 4, the fourth's is a lone zero unit, and the fifth has none.
pub fn named() -> Vec<(&'static str, Vec<u8>)> {
    vec![
        ("CHAN with each sort of name", chan()),
        ("KEYW with each sort of name", keyw()),
        ("LEVL with each sort of name", plain(b"LEVL")),
        ("OPCO with each sort of name", plain(b"OPCO")),
        ("TASK with each sort of name", task()),
        ("VMAPs with each sort of name, BMAP, another", maps()),
        ("items with each sort of name", items()),
    ]
}

fn chan() -> Vec<u8> {
    definitions(b"CHAN", |name| [1, name, 2, 3])
}

fn keyw() -> Vec<u8> {
    definitions(b"KEYW", |name| [1, 2, 3, name])
}

fn plain(signature: &[u8; 4]) -> Vec<u8> {
    definitions(signature, |name| [1, 2, name])
}

fn task() -> Vec<u8> {
    definitions(b"TASK", |name| [1, 2, 3, 4, 5, 6, name])
}

/// The names at 64, behind them a table with such a record for each of them.
fn definitions<const N: usize>(signature: &[u8; 4], record: fn(u32) -> [u32; N]) -> Vec<u8> {
    let mut draft = provider(100);
    let names = names(&mut draft);
    let start = draft.open(signature);
    draft.word(5);
    for name in names {
        words(&mut draft, &record(name));
    }
    finish(draft, start)
}

/// The names at 64, behind them a MAPS. The BMAP and the other map have a word where a VMAP has its
/// name's offset.
fn maps() -> Vec<u8> {
    let mut draft = provider(100);
    let names = names(&mut draft);
    let start = draft.open(b"MAPS");
    words(&mut draft, &[7, 0, 164, 188, 212, 236, 260, 276]);
    for name in names {
        draft.put(b"VMAP");
        words(&mut draft, &[24, name, 1, 2, 3]);
    }
    for signature in [b"BMAP", b"XMAP"] {
        draft.put(signature);
        words(&mut draft, &[16, names[0], 0]);
    }
    finish(draft, start)
}

/// A TEMP at 76, in it the items at 116, and at 216 the names.
fn items() -> Vec<u8> {
    let mut draft = provider(64);
    let start = draft.open(b"TTBL");
    draft.word(1);
    let temp = draft.open(b"TEMP");
    words(&mut draft, &[5, 5, 116, 0, 0, 0, 0, 0]);
    let items = draft.bytes.len();
    draft.put(&[0; 5 * 20]);
    let names = names(&mut draft);
    for (i, name) in names.into_iter().enumerate() {
        // unknown1 1, types 2 and 3, unknown3 4, unknown4 5, count 6, length 7
        let item = [1, 0x0004_0302, 5, 0x0007_0006, name];
        for (j, word) in item.into_iter().enumerate() {
            draft.set(items + 20 * i + 4 * j, word);
        }
    }
    draft.end_exactly(temp);
    finish(draft, start)
}

/// One provider, with one element at a place.
fn provider(element: u32) -> Draft {
    let mut draft = Draft::new(0);
    draft.open(b"CRIM");
    words(&mut draft, &[0, 1, 0, 0, 0, 0, 36]);
    draft.put(b"WEVT");
    words(&mut draft, &[0, 0, 1, 0, element, 0]);
    draft
}

/// Names of each sort, 36 bytes; gives their offsets, and 0. Zeros stand behind those that run out,
/// and a unit behind the lone zero unit: they aren't of these names.
fn names(draft: &mut Draft) -> [u32; 5] {
    let at = draft.here();
    words(draft, &[8, 0x0000_0041]);
    words(draft, &[8, 0x0042_0041, 0]);
    words(draft, &[4, 0]);
    words(draft, &[6, 0x0043_0000]);
    [at, at + 8, at + 20, at + 28, 0]
}

fn words(draft: &mut Draft, words: &[u32]) {
    for &word in words {
        draft.word(word);
    }
}

/// Ends the element, and the blob with it.
fn finish(mut draft: Draft, element: usize) -> Vec<u8> {
    draft.end_exactly(element);
    draft.close();
    draft.bytes
}
