//! Stored hashes.

use super::case::{words, Operation, Run, Stored};
use cases::Rng;
use link::DONE;
use oracle::rage_joaat;

/// Names made by hand.
const NAMES: [&str; 8] = ["", "a", "head", "Head", "SKEL_Spine_Root", "\0", "Ständer_ß", "\u{7FF}\u{FFFF}\u{10FFFF}"];

/// How many are drawn.
const DRAWN: u32 = 52;

pub fn cases() -> Vec<Stored> {
    let by_hand = NAMES.iter().zip(1..).map(|(name, number)| hashed(number, name));
    by_hand.chain((101..=100 + DRAWN).map(|seed| hashed(seed, &drawn(seed)))).collect()
}

fn drawn(seed: u32) -> String {
    let mut rng = Rng::new(seed as u64);
    let length = rng.below(40);
    (0..length).filter_map(|_| char::from_u32(rng.below(0x800) as u32)).collect()
}

fn hashed(number: u32, name: &str) -> Stored {
    let parts = vec![name.as_bytes().to_vec(), words(&[rage_joaat(name)])];
    Stored { number, runs: vec![Run::longer(Operation::Hash, DONE)], call: [0, 0], parts }
}
