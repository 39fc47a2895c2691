//! Drawn inputs of the program.

use super::LONGEST;
use cases::damage::CHANGES;
use cases::rigs::{rig, rig_of};
use cases::{Rng, Section};
use oracle::{write, Bone, SYSTEM_BASE};

/// The lengths at which the answers turn.
const LENGTHS: [(usize, &str); 6] =
    [(0, "0"), (97, "97"), (98, "98"), (112, "112"), (LONGEST, "65,536"), (LONGEST + 1, "65,537")];

pub fn length_label(length: usize) -> Option<&'static str> {
    LENGTHS.iter().find(|&&(l, _)| l == length).map(|&(_, label)| label)
}

/// Bytes of one of `LENGTHS`, a written section whole, cut or filled up, and mostly a damaged one.
pub fn drawn(rng: &mut Rng) -> Vec<u8> {
    let (length, _) = rng.pick(&LENGTHS);
    match rng.below(20) {
        0 => rng.bytes(length),
        1 => vec![0; length],
        2 => resized(written(&rig(rng), rng), length),
        3 => {
            let n = rng.below(290);
            let bones = rig_of(rng, n);
            written(&bones, rng)
        }
        4 => {
            let section = written(&rig(rng), rng);
            let length = rng.below(section.len());
            resized(section, length)
        }
        _ => damaged(rng),
    }
}

fn written(bones: &[Bone], rng: &mut Rng) -> Vec<u8> {
    write(bones, std::array::from_fn(|_| rng.next() as u32)).section()
}

fn resized(mut section: Vec<u8>, length: usize) -> Vec<u8> {
    section.resize(length, 0);
    section
}

/// A written section and one to three named changes, its root at the start.
fn damaged(rng: &mut Rng) -> Vec<u8> {
    let bones = rig(rng);
    let mut section = Section::written(written(&bones, rng));
    for _ in 0..1 + rng.below(6) / 3 + rng.below(6) / 5 {
        let (_, change) = rng.pick(&CHANGES);
        change(&mut section, rng);
        section.root = SYSTEM_BASE;
    }
    section.system
}
