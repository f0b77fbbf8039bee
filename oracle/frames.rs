//! Blobs one after another in a stream, each as its length (a little-endian
//! 32-bit number) and its bytes.

use std::io::{Error, ErrorKind, Read, Result, Write};

/// The next blob, or nothing at the stream's end.
pub fn read(from: &mut impl Read) -> Result<Option<Vec<u8>>> {
    let mut head = Vec::new();
    from.by_ref().take(4).read_to_end(&mut head)?;
    if head.is_empty() {
        return Ok(None);
    }
    let Ok(head) = <[u8; 4]>::try_from(head) else {
        return Err(cut_short());
    };
    let length = u32::from_le_bytes(head);
    let mut blob = Vec::new();
    from.take(length.into()).read_to_end(&mut blob)?;
    if blob.len() != length as usize {
        return Err(cut_short());
    }
    Ok(Some(blob))
}

pub fn write(to: &mut impl Write, blob: &[u8]) -> Result<()> {
    let length = u32::try_from(blob.len()).map_err(Error::other)?;
    to.write_all(&length.to_le_bytes())?;
    to.write_all(blob)
}

fn cut_short() -> Error {
    Error::new(ErrorKind::UnexpectedEof, "the input ends within a blob")
}
