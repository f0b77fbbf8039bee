//! The blobs Z, T and U of docs/FORMAT.md. This file stands alone: the tests of `bindings/rust` use it too.

/// `CRIM`, size 16, no provider.
pub fn z() -> Vec<u8> {
    let mut z = vec![0; 16];
    z[..4].copy_from_slice(b"CRIM");
    with(&z, 4, 16)
}

/// One provider with one table, a TTBL, with one template.
pub fn t() -> Vec<u8> {
    let mut t = vec![0; 116];
    for (place, signature) in [(0, b"CRIM"), (36, b"WEVT"), (64, b"TTBL"), (76, b"TEMP")] {
        t[place..place + 4].copy_from_slice(signature);
    }
    for (place, value) in [
        (4, 116), // CRIM.size
        (12, 1),  // provider count
        (32, 36), // provider offset
        (40, 80), // WEVT.size
        (48, 1),  // descriptor count
        (56, 64), // descriptor offset
        (68, 52), // TTBL.size
        (72, 1),  // TTBL count
        (80, 40), // TEMP.size
    ] {
        t = with(&t, place, value);
    }
    t
}

/// As T, with an item in the template whose name is `A`, and eight bytes more behind it.
pub fn u() -> Vec<u8> {
    let mut u = t();
    u.resize(152, 0);
    for (place, value) in [
        (4, 152),        // CRIM.size
        (68, 80),        // TTBL.size
        (80, 68),        // TEMP.size
        (84, 1),         // item count
        (88, 1),         // name count
        (92, 116),       // items offset
        (132, 136),      // the item's name offset
        (136, 8),        // the name's size
        (140, 'A' as _), // its units, the second of them zero
    ] {
        u = with(&u, place, value);
    }
    u
}

/// A copy of the blob with one word set.
pub fn with(blob: &[u8], place: usize, value: u32) -> Vec<u8> {
    let mut copy = blob.to_vec();
    copy[place..place + 4].copy_from_slice(&value.to_le_bytes());
    copy
}
