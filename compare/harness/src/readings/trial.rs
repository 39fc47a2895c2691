//! The trial rigs that docs/FORMAT.md lists, run with the published Rust.

use super::ask::{build_bone_tags, build_indices, build_transformations, check, num_hash_buckets, reading, refusal, write};
use cases::records::skeleton as s;
use cases::trial::{plain_bone, rig_of_parents, NONE};
use cases::{Hand, Section};
use oracle::{Bone, Verdict, SYSTEM_BASE};

pub fn trial_buckets() {
    assert_eq!([10, 11, 65_166, 65_167].map(num_hash_buckets), [11, 29, 65_167, 65_521]);
}

/// Tags 0, 11, 22: bucket 0 holds 2, 1, 0.
pub fn trial_tags() {
    let bones: Vec<Bone> = (0..3).map(|i| Bone { tag: 11 * i as u16, ..plain_bone(i, NONE) }).collect();
    assert_eq!(build_bone_tags(&bones)[0], [(22, 2), (11, 1), (0, 0)]);
}

pub fn trial_children() {
    assert_eq!(build_indices(&rig_of_parents(&[-1, 0, 0])).1, [1, 0, 2, 0, 2, 0, 2, 0]);
    let (_, children) = build_indices(&rig_of_parents(&[-1, 0, 0, 0, 0, 0, 1]));
    assert_eq!(children, [1, 0, 2, 0, 3, 0, 4, 0, 6, 1, 5, 0, 5, 0, 5, 0]);
}

/// One bone, index and parent -1: sixteen times -1.
pub fn trial_own_parent() {
    assert_eq!(build_indices(&[Bone { index: -1, ..plain_bone(0, NONE) }]).1, [-1; 16]);
}

/// Rotation (0.5, 0.5, 0, 0), no translation, a root: the inverse is all zero.
pub fn trial_singular() {
    let half = 0.5f32.to_bits();
    let bone = Bone { rotation: [half, half, 0, 0], ..plain_bone(0, NONE) };
    assert_eq!(build_transformations(&[bone]).1, [[0; 16]]);
}

/// No bones: 112 bytes, accepted.
pub fn trial_no_bones() {
    let section = Section::written(write(&[]).section());
    assert_eq!(section.system.len(), 112);
    assert_eq!(check(&section), Verdict::Accepted(0));
}

/// One root, index 0, no name: 352 bytes, bones pointer 50000080 hex.
pub fn trial_one_root() {
    let section = Section::written(write(&[plain_bone(0, NONE)]).section());
    assert_eq!((section.system.len(), section.pointer(s::BONES)), (352, SYSTEM_BASE + 0x80));
    assert_eq!(check(&section), Verdict::Accepted(1));
}

pub fn trial_bones_pointer_15_and_16() {
    let mut h = Hand::new();
    h.skeleton.bones = 15;
    assert_eq!(refusal(&h.section()), 13);
    h.skeleton.bones = 16;
    assert_eq!(reading(&h.section()).bones, None);
}
