//! Small rigs that many cases start from.

use oracle::Bone;

pub const ONE: u32 = 0x3F80_0000;
pub const NONE: i16 = -1;

/// Each number of buckets, with the least and the greatest count of bones that has it.
pub const BUCKET_ENDS: [(usize, usize, usize); 17] = [
    (11, 0, 10),
    (29, 11, 28),
    (59, 29, 58),
    (107, 59, 106),
    (191, 107, 190),
    (331, 191, 330),
    (563, 331, 562),
    (953, 563, 952),
    (1609, 953, 1608),
    (2729, 1609, 2728),
    (4621, 2729, 4620),
    (7841, 4621, 7840),
    (13297, 7841, 13296),
    (22571, 13297, 22570),
    (38351, 22571, 38350),
    (65167, 38351, 65166),
    (65521, 65167, 65535),
];

/// A bone with no turn, no shift and no name; its index and tag are its position.
pub fn plain_bone(position: usize, parent: i16) -> Bone {
    Bone {
        rotation: [0, 0, 0, ONE],
        translation: [0; 3],
        scale: [ONE; 3],
        next_sibling: NONE,
        parent,
        name: None,
        flags: 0,
        index: position as i16,
        tag: position as u16,
        kept: [0; 4],
    }
}

/// Plain bones with these parents.
pub fn rig_of_parents(parents: &[i16]) -> Vec<Bone> {
    parents.iter().enumerate().map(|(i, &p)| plain_bone(i, p)).collect()
}

/// A chain: bone 0 is a root, each other bone hangs on the one before it.
pub fn rig_of_chain(bones: usize) -> Vec<Bone> {
    (0..bones).map(|i| plain_bone(i, i as i16 - 1)).collect()
}

/// The three bones over whose section the controls are small edits.
pub fn control_rig() -> Vec<Bone> {
    let turned = Bone {
        rotation: [0x3F00_0000, 0x3E80_0000, 0xBF00_0000, 0x3F40_0000], // 0.5 0.25 -0.5 0.75
        translation: [ONE, 0xC000_0000, 0x3DCC_CCCD],                   // 1.0 -2.0 0.1
        scale: [ONE, 0x4000_0000, 0x3F00_0000],                         // 1.0 2.0 0.5
        next_sibling: 2,
        parent: NONE,
        name: Some(b"He".to_vec()),
        flags: 7,
        index: 0,
        tag: 5,
        kept: [1, 2, 0xFFC0_0001, 3],
    };
    let still = Bone { index: 1, tag: 16, ..plain_bone(1, 0) };
    let second = Bone { parent: 0, name: Some(Vec::new()), index: 2, ..turned.clone() };
    vec![turned, still, second]
}
