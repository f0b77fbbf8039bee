//! Blobs to test a reader of manifests with: good ones of every shape, and
//! damaged ones that together reach every answer.

mod bad_items;
mod damage;
mod draft;
mod elements;
mod faults;
mod items;
pub mod joins;
pub mod known;
pub mod large;
mod maps;
mod named;
mod names;
mod rng;
mod shape;
mod small;

pub use rng::Rng;

/// How many blobs in a hundred are damaged unless told otherwise. Some damage
/// does no harm, so more than the rest are accepted.
pub const DAMAGED: usize = 45;

/// A blob that is damaged with a chance of so many in a hundred.
pub fn blob(rng: &mut Rng, damaged: usize) -> Vec<u8> {
    let mut draft;
    if !rng.chance(damaged) {
        draft = shape::draft(rng, 0);
        draft.close();
    } else if rng.chance(50) {
        draft = shape::draft(rng, 1);
        faults::graft(&mut draft, rng);
        // With two faults the one that is read first decides.
        if rng.chance(15) {
            faults::graft(&mut draft, rng);
        }
        draft.close();
    } else {
        draft = shape::draft(rng, 0);
        draft.close();
        for _ in 0..rng.pick(&[1, 1, 1, 2, 3]) {
            damage::spoil(&mut draft, rng);
        }
    }
    if rng.chance(15) {
        // Stray bytes behind the size that the blob states.
        let stray = rng.between(1, 40);
        draft.random(rng, stray);
    }
    draft.bytes
}
