//! Reading a block.

use crate::capacities::Capacities;
use crate::list::List;
use crate::manifest::Manifest;
use crate::raw;
use crate::refusal::Refusal;

/// What each list of a block needs. A number stops rising at 65,537: more than there can be room
/// for.
///
/// Bytes that are refused whatever the room, with a code of 1 to 7, are refused here too.
pub fn needs(blob: &[u8]) -> Result<Capacities, Refusal> {
    let mut answer = [0; raw::NUMBERS];
    let code = raw::ducat_needs(blob, &mut answer);
    Ok(accepted(code, &answer)?.counts)
}

/// Reads a block into words that are allocated for it: as many as it needs.
pub fn read(blob: &[u8]) -> Result<Manifest<'_>, Refusal> {
    let capacities = needs(blob)?;
    // The first list that needs more than there can be room for is what a reading would refuse.
    if let Some(list) = List::all().find(|&list| capacities.of(list) > Capacities::LIMIT) {
        let [number, capacity] = [list.number(), Capacities::LIMIT].map(u64::from);
        return Err(Refusal::new(9, [0, 0, number, capacity]));
    }
    let mut words = vec![0; capacities.words().expect("no capacity over the limit")];
    let answer = ask(blob, &capacities, &mut words)?;
    Ok(Manifest::new(blob, words.into(), capacities, &answer))
}

/// Reads a block into lent words, at least [`Capacities::words`] of them. On a refusal they keep
/// their values.
///
/// ```
/// # let blob = std::fs::read("../../samples/drive.crim")?;
/// let needs = ducatfeather::needs(&blob)?;
/// let mut words = vec![0; needs.words().ok_or("more than there can be room for")?];
/// let manifest = ducatfeather::read_into(&blob, &needs, &mut words)?;
/// # assert_eq!(manifest.templates().len(), 9);
/// # Ok::<(), Box<dyn std::error::Error>>(())
/// ```
pub fn read_into<'a>(
    blob: &'a [u8],
    capacities: &Capacities,
    words: &'a mut [u32],
) -> Result<Manifest<'a>, Refusal> {
    let answer = ask(blob, capacities, words)?;
    let words: &[u32] = words;
    Ok(Manifest::new(blob, words.into(), *capacities, &answer))
}

/// What an answer with code 0 says.
pub(crate) struct Accepted {
    pub size: usize,
    /// The major and the minor one.
    pub version: (u16, u16),
    pub counts: Capacities,
}

fn ask(blob: &[u8], capacities: &Capacities, words: &mut [u32]) -> Result<Accepted, Refusal> {
    let mut answer = [0; raw::NUMBERS];
    let code = raw::ducat_read(blob, words, capacities.in_order(), &mut answer);
    accepted(code, &answer)
}

fn accepted(code: u32, answer: &[u64; raw::NUMBERS]) -> Result<Accepted, Refusal> {
    let [_, field, place, first, second, counts @ ..] = *answer;
    match code {
        0 => Ok(Accepted {
            size: first as usize,
            version: (second as u16, (second >> 16) as u16),
            counts: Capacities::from_counts(counts),
        }),
        _ => Err(Refusal::new(code, [field, place, first, second])),
    }
}
