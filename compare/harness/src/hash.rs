//! The hash of our library against the published one.

use crate::difference::{compare, hex, Difference, Input, Place};
use crate::extent::Extent;
use crate::model;
use crate::smaller::smaller_bytes;
use cases::Rng;
use link::Hash;
use oracle::rage_joaat;
use std::path::Path;

/// A name's bytes.
#[derive(Clone)]
struct Name(Vec<u8>);

impl Input for Name {
    fn smaller(&self) -> impl Iterator<Item = Self> {
        smaller_bytes(&self.0).map(Name)
    }

    fn text(&self) -> String {
        format!("bytes {}\n", hex(&self.0))
    }
}

/// The published hash takes UTF-8; for other bytes the format's definition stands in, which `rigs::hash` holds to it.
pub fn hash_of(name: &[u8]) -> u32 {
    std::str::from_utf8(name).map_or_else(|_| model::joaat(name), rage_joaat)
}

/// All strings of up to two bytes, then random ones, every other one UTF-8. Gives their number.
pub fn run(library: &dyn Hash, folder: &Path, seed: u64, extent: Extent) -> Result<u64, Difference> {
    let mut rng = Rng::new(seed);
    let mut names = 0;
    let mut one = |bytes: Vec<u8>| {
        names += 1;
        compare(&Place { folder, name: "hash", seed }, &Name(bytes), |n| library.rage_joaat(&n.0), |n| hash_of(&n.0)).map(drop)
    };
    one(Vec::new())?;
    for a in 0..=255 {
        one(vec![a])?;
        (0..=255).try_for_each(|b| one(vec![a, b]))?;
    }
    for _ in 0..extent.of([300, 50_000, 1_000_000]) {
        let length = if rng.one_in(50) { rng.below(2_000) } else { rng.below(40) };
        let bytes = if rng.one_in(2) {
            rng.bytes(length)
        } else {
            (0..length).filter_map(|_| char::from_u32(rng.below(0x800) as u32)).collect::<String>().into_bytes()
        };
        one(bytes)?;
    }
    Ok(names)
}
