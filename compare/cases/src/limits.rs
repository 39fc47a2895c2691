//! Random joint limits, and rows of them.

use crate::rng::Rng;
use crate::rows::{self, ROTATION, TRANSLATION};
use crate::words::{words, Temper};
use oracle::{fresh_rotation_limit, RotationLimit, TranslationLimit};

/// A rotation limit: a fresh one with a new id, or any words at all.
pub fn rotation_limit(rng: &mut Rng) -> RotationLimit {
    let fresh = RotationLimit { id: rng.next() as u16, ..fresh_rotation_limit() };
    if rng.one_in(4) {
        return fresh;
    }
    RotationLimit {
        second: rng.next() as u16,
        min: words(rng, Temper::Wild),
        max: words(rng, Temper::Wild),
        other: std::array::from_fn(|_| rng.next() as u32),
        ..fresh
    }
}

/// A translation limit of any words.
pub fn translation_limit(rng: &mut Rng) -> TranslationLimit {
    TranslationLimit {
        id: rng.next() as u32,
        min: words(rng, Temper::Wild),
        max: words(rng, Temper::Wild),
        other: std::array::from_fn(|_| rng.next() as u32),
    }
}

/// Ids at the bounds of 16 and of 32 bits: a rotation limit's record has room for the first two.
pub const IDS: [u32; 4] = [0, 65_535, 65_536, u32::MAX];

/// An id at a bound, or any of 32 bits.
fn id(rng: &mut Rng) -> u32 {
    if rng.one_in(2) {
        rng.pick(&IDS)
    } else {
        rng.next() as u32
    }
}

/// The row of a rotation limit, now and then with an id of 32 bits, and with anything in the half that is not looked at.
pub fn rotation_row(rng: &mut Rng) -> [u32; ROTATION] {
    let mut row = rows::rotation(&rotation_limit(rng));
    if rng.one_in(8) {
        row[0] = id(rng);
    }
    if rng.one_in(2) {
        row[ROTATION - 1] |= (rng.next() as u32) << 16;
    }
    row
}

/// The row of a translation limit, whose record has room for every id.
pub fn translation_row(rng: &mut Rng) -> [u32; TRANSLATION] {
    rows::translation(&TranslationLimit { id: id(rng), ..translation_limit(rng) })
}
