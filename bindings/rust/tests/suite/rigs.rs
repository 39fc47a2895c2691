//! Random rigs.

use crate::rng::Rng;
use rig::{Bone, Float};

/// Names: none, empty, text, other bytes than UTF-8, one that comes twice in the game's own rigs, the longest.
const NAMES: [Option<&[u8]>; 8] = [
    None,
    Some(b""),
    Some(b"head"),
    Some(b"SKEL_Spine_Root"),
    Some("Pferdekopf-Zügel".as_bytes()),
    Some(&[0xFF, 0xFE, 0x80]),
    Some(&[0xC3]),
    Some(&[0xE9; 255]),
];

/// Words of zeros, infinities, subnormals and NaN, quiet and signalling, with payloads.
const SPECIAL: [u32; 9] =
    [0x0000_0000, 0x8000_0000, 0x7F80_0000, 0xFF80_0000, 0x0000_0001, 0x7FC0_0000, 0x7FC1_2345, 0x7F80_0001, 0xFFFF_FFFF];

/// Tags are drawn below one of these, so that some rigs have long chains and tags that repeat.
const TAGS: [usize; 3] = [4, 40, 65_536];

/// A tree of `n` bones, or, once in four times, bones with any indices and parents.
pub fn rig(rng: &mut Rng, n: usize) -> Vec<Bone<'static>> {
    let (tree, tags) = (rng.below(4) > 0, rng.pick(&TAGS));
    let bone = |i: usize| {
        let (index, parent) = if tree {
            (i as i16, if i == 0 { -1 } else { rng.below(i) as i16 })
        } else {
            (rng.below(n + 2) as i16 - 2, rng.below(n + 2) as i16 - 2)
        };
        Bone {
            name: rng.pick(&NAMES),
            tag: rng.below(tags) as u16,
            index,
            parent,
            next_sibling: rng.next() as i16,
            flags: rng.next() as u16,
            rotation: words(rng),
            translation: words(rng),
            scale: words(rng),
            column4: words(rng),
        }
    };
    (0..n).map(bone).collect()
}

fn words<const N: usize>(rng: &mut Rng) -> [Float; N] {
    std::array::from_fn(|_| match rng.below(8) {
        0 => Float::from_bits(rng.pick(&SPECIAL)),
        1 => Float::from_bits(rng.next() as u32),
        _ => Float::from(rng.below(2001) as f32 / 1000.0 - 1.0),
    })
}

/// Bones that differ by index alone and are nobody's children.
pub fn roots(n: usize) -> Vec<Bone<'static>> {
    (0..n).map(|i| Bone { index: i as i16, tag: i as u16, ..Bone::default() }).collect()
}

/// Bones that each hang on the one before.
pub fn line(n: usize) -> Vec<Bone<'static>> {
    (0..n).map(|i| Bone { index: i as i16, parent: i as i16 - 1, tag: i as u16, ..Bone::default() }).collect()
}
