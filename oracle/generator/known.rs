//! Blobs that have a name: those of docs/FORMAT.md, those with each sort of name in them, and some that
//! lie at a limit.

use crate::draft::Draft;
pub use crate::named::named;
pub use crate::small::{t, u, with, z};

/// The blobs of the cases of docs/FORMAT.md, in their order.
pub fn cases() -> Vec<(&'static str, Vec<u8>)> {
    let (z, t, u) = (z(), t(), u());
    vec![
        ("empty", Vec::new()),
        ("Z", z.clone()),
        (
            "Z plus five stray bytes",
            [&z[..], &[1, 2, 3, 4, 5]].concat(),
        ),
        ("Z with size 15", with(&z, 4, 15)),
        ("Z with size 17", with(&z, 4, 17)),
        ("Z with provider count 1", with(&z, 12, 1)),
        ("T", t.clone()),
        ("T with TTBL.size 51", with(&t, 68, 51)),
        ("T with TEMP.size 39", with(&t, 80, 39)),
        ("T with items offset 75", with(&t, 92, 75)),
        ("T with items offset 117", with(&t, 92, 117)),
        ("T with name count 1", with(&t, 88, 1)),
        ("U", u.clone()),
        (
            "U with a name without a zero unit",
            with(&u, 140, 0x42_0041),
        ),
        (
            "U with a lone zero unit as its name",
            with(&with(&u, 136, 6), 140, 0),
        ),
        ("U with name offset 0", with(&u, 132, 0)),
        ("U with item count 2", with(&u, 84, 2)),
        (
            "U with item count 2 and name offset 75",
            with(&with(&u, 84, 2), 132, 75),
        ),
        ("U with items offset 0", with(&u, 92, 0)),
        ("U with name offset 75", with(&u, 132, 75)),
        (
            "U with name offset 100, and size 4 there",
            with(&with(&u, 132, 100), 100, 4),
        ),
        ("U with name offset 145", with(&u, 132, 145)),
        ("U with name offset 144", with(&u, 132, 144)),
        ("U with name size 3", with(&u, 136, 3)),
        ("U with name size 7", with(&u, 136, 7)),
        ("U with name size 10", with(&u, 136, 10)),
        ("U with half a pair as its name", with(&u, 140, 0xd800)),
    ]
}

/// The smallest inputs of docs/DIFFERENCES.md that aren't about items: structures that overlap as far
/// as they can.
pub fn smallest() -> Vec<Vec<u8>> {
    // A name of odd size; the same with the even sizes next to it.
    let odd: &[u8] = b"CRIM\x34\0\0\0\0\0\0\0\x01\0\0\0\x05\0\0\0\0\0\0\0WEVTLEVL\
        \x18\0\0\0\x01\0\0\0\0\0\0\0\x1c\0\0\0\x10\0\0\0";
    // One provider, with nothing in it.
    let provider: &[u8] = b"CRIM\x24\0\0\0WEVT\x01\0\0\0\0\0\0\0\0\0\0\0\0\0\0\0\0\0\0\0\x08\0\0\0";
    vec![
        odd.to_vec(),
        with(odd, 16, 4),
        with(odd, 16, 6),
        provider.to_vec(),
        with(&t(), 92, 76),
    ]
}

/// The smallest inputs of the differences in items, in the order of docs/DIFFERENCES.md.
pub fn item_differences() -> [Vec<u8>; 9] {
    // Behind the header one item from 68 on, whose name offset stands at 84; or two.
    let (one, two) = (least(60, 1, 68), least(80, 2, 68));
    let mut longer = with(&with(&one, 4, 89), 84, 27);
    longer.push(0);
    [
        least(48, 0, 28),
        least(40, 1, 0),
        least(40, 1, 48),
        least(40, 1, 68),
        longer,
        with(&one, 84, 89),
        with(&with(&two, 84, 76), 104, 1),
        with(&with(&one, 84, 64), 64, 4),
        with(&one, 84, 88),
    ]
}

/// The shortest blob with a TEMP of a size. The TTBL and the start of the TEMP stand in the provider's
/// descriptor, so that the size says where the WEVT is; that stands in the TEMP.
fn least(size: u32, items: u32, items_offset: u32) -> Vec<u8> {
    let mut blob = vec![0; 28 + size as usize];
    let wevt = size as usize;
    for (place, signature) in [(0, b"CRIM"), (16, b"TTBL"), (28, b"TEMP"), (wevt, b"WEVT")] {
        blob[place..place + 4].copy_from_slice(signature);
    }
    for (place, value) in [
        (4, blob.len() as u32),
        (12, 1),     // provider count
        (24, 1),     // TTBL count
        (32, size),  // TEMP.size, and the provider's offset
        (36, items), // item count
        (44, items_offset),
        (wevt + 12, 1),  // descriptor count
        (wevt + 20, 16), // descriptor offset
    ] {
        blob = with(&blob, place, value);
    }
    blob
}

/// What many providers share in `shared`.
#[derive(Clone, Copy, Debug)]
pub enum Shared {
    Unknown2,
    Events,
    MapEntries,
    Items,
}

/// Providers, so many, over one WEVT; each has so many entries of what they share.
pub fn shared(providers: usize, entries: usize, what: Shared) -> Vec<u8> {
    let mut draft = Draft::new(0);
    draft.open(b"CRIM");
    draft.word(0);
    draft.word(providers as u32);
    let wevt = 16 + 20 * providers as u32;
    for _ in 0..providers {
        draft.put(&[0; 16]);
        draft.word(wevt);
    }
    draft.put(b"WEVT");
    draft.word(0);
    draft.word(0);
    let (descriptors, unknown2) = match what {
        Shared::Unknown2 => (0, entries),
        _ => (1, 0),
    };
    draft.word(descriptors);
    draft.word(unknown2 as u32);
    for _ in 0..descriptors {
        draft.word(wevt + 28);
        draft.word(0);
    }
    match what {
        Shared::Unknown2 => draft.put(&vec![0; 4 * entries]),
        Shared::Events => {
            draft.open(b"EVNT");
            draft.word(entries as u32);
            draft.put(&vec![0; 4 + 48 * entries]);
        }
        Shared::MapEntries => {
            draft.open(b"MAPS");
            draft.word(1);
            draft.word(0);
            let map = draft.open(b"VMAP");
            draft.word(0);
            draft.word(entries as u32);
            draft.put(&vec![0; 8 * entries]);
            draft.end_exactly(map);
        }
        Shared::Items => {
            draft.open(b"TTBL");
            draft.word(1);
            let temp = draft.open(b"TEMP");
            draft.word(entries as u32);
            draft.word(0);
            draft.word(temp as u32 + 40);
            draft.put(&vec![0; 20 + 20 * entries]);
            draft.end_exactly(temp);
        }
    }
    draft.close();
    draft.bytes
}
