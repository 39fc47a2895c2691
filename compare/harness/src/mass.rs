//! Many calls on sections and rigs of few bones, each compared with the published Rust as the other stages compare theirs:
//! status, fields, every lent word, guards, and what is lent for reading. They are quick because memory is lent again and again,
//! a section is damaged in place and then made good again, and each is asked for in several lent sizes.

pub mod checks;
mod distinct;
mod memory;
pub mod reads;
pub mod writes;

use crate::difference::{store, Difference, Input, Place};
use crate::tally::Tally;
use cases::rigs::rig_of;
use cases::{damage, good_of, Rng, Section};
use distinct::Distinct;
use oracle::Bone;
use std::fmt;

/// What a run did.
pub struct Done {
    /// Calls, and what they are called.
    calls: u64,
    of: &'static str,
    /// The first seed and the one behind the last.
    seeds: [u64; 2],
    tally: Tally,
    /// What is counted once however often it came.
    distinct: Vec<(&'static str, usize)>,
}

impl AsRef<Tally> for Done {
    fn as_ref(&self) -> &Tally {
        &self.tally
    }
}

impl fmt::Display for Done {
    fn fmt(&self, f: &mut fmt::Formatter<'_>) -> fmt::Result {
        let [first, end] = self.seeds;
        write!(f, "  {} {}, seeds {first} to {}", self.calls, self.of, end - 1)?;
        self.distinct.iter().try_for_each(|(of, count)| write!(f, "; {count} distinct {of}"))?;
        write!(f, "\n{}", self.tally)
    }
}

/// 1 to 5 bones, now and then none or up to 12, seldom up to 40.
fn few_bones(rng: &mut Rng) -> Vec<Bone> {
    let n = match rng.below(200) {
        0 => rng.below(41),
        1..16 => rng.below(13),
        16..24 => 0,
        _ => 1 + rng.below(5),
    };
    rig_of(rng, n)
}

/// A good section of few bones and so many less one damaged ones made from it, one after the other.
fn few_damaged<E>(rng: &mut Rng, count: u64, mut each: impl FnMut(&Section, &mut Rng) -> Result<(), E>) -> Result<(), E> {
    let bones = few_bones(rng);
    let good = good_of(rng, &bones);
    let mut section = good.clone();
    for i in 0..count {
        section.copy_from(&good);
        if i > 0 {
            damage(&mut section, rng);
        }
        each(&section, rng)?;
    }
    Ok(())
}

/// A length as drawn: as it is, or some words more or fewer.
fn drawn_length(rng: &mut Rng, exact: usize) -> usize {
    match rng.below(10) {
        0 => exact.saturating_sub(1 + rng.below(3)),
        1..5 => exact,
        _ => exact + rng.below(12),
    }
}

/// A difference that came here: what the other stages' comparison of the same input gives, which makes it smaller; where that
/// finds none, the input as it is.
fn found<I: Input, A>(place: &Place, input: &I, again: Result<A, Difference>) -> Difference {
    match again {
        Err(difference) => difference,
        Ok(_) => store(place, format!("{}a difference in the memory that was used before\n", input.text())),
    }
}

/// The distinct items of all workers.
fn joined<'a>(parts: impl Iterator<Item = &'a mut Distinct>) -> usize {
    let mut all = Distinct::default();
    parts.for_each(|part| all.join(std::mem::take(part)));
    all.count()
}
