//! Deriving: chains, parents, children and the walk.

use super::ask::{build_bone_tags, build_indices, build_transformations};
use crate::model;
use cases::rigs::rig;
use cases::trial::{plain_bone, rig_of_parents, NONE, ONE};
use cases::Rng;
use oracle::Bone;

/// Bones with these (index, parent) pairs.
fn rig_of(pairs: &[(i16, i16)]) -> Vec<Bone> {
    pairs.iter().enumerate().map(|(i, &(index, parent))| Bone { index, ..plain_bone(i, parent) }).collect()
}

/// Every negative parent makes a root, not only -1.
pub fn roots_are_all_negative_parents() {
    let (parents, children) = build_indices(&rig_of(&[(0, -7), (1, 0), (2, i16::MIN), (3, 2)]));
    assert_eq!(parents, [-7, 0, i16::MIN, 2]);
    assert_eq!(children, [1, 0, 3, 2, 3, 2, 3, 2]);
}

/// Index 5 at position 0: its child has parent 5; the walk from that bone leaves the list of two, and the
/// chain entries hold positions.
pub fn children_by_index_walk_and_entries_by_position() {
    let mut bones = rig_of(&[(5, -1), (9, 5)]);
    bones[0].translation = [ONE; 3];
    assert_eq!(build_indices(&bones).1, [9, 5, 9, 5, 9, 5, 9, 5]);
    // parent 5 is no position of two bones: no step is taken
    assert_eq!(build_transformations(&bones).1[1], build_transformations(&[plain_bone(0, NONE)]).1[0]);
    assert_eq!(build_bone_tags(&bones)[1], [(1, 1)]);
}

/// A bone whose index equals its own negative parent.
pub fn bone_is_its_own_child() {
    assert_eq!(build_indices(&rig_of(&[(-3, -3)])).1, [-3; 16]);
}

/// Five children and a grandchild of the first: it goes in front of the fifth child.
pub fn children_go_in_front() {
    let (_, children) = build_indices(&rig_of_parents(&[-1, 0, 0, 0, 0, 0, 1]));
    assert_eq!(children, [1, 0, 2, 0, 3, 0, 4, 0, 6, 1, 5, 0, 5, 0, 5, 0]);
}

/// A pending list cut at 4 * (n + 1) gives the published list; cut at 4 * n it does not: eight roots of
/// one index with nine children in common, 72 pending where 4 * n is 68.
pub fn layers_up_to_n_plus_1() {
    for seed in 0..5_000 {
        let bones = rig(&mut Rng::new(seed));
        let (_, children) = build_indices(&bones);
        assert_eq!(model::children(&bones, 4 * (bones.len() + 1)), children, "seed {seed}");
    }
    let bones = rig_of(&[vec![(0, -1); 8], vec![(20, 0); 9]].concat());
    let (n, (_, children)) = (bones.len(), build_indices(&bones));
    assert_eq!(children.len(), 8 * (n + 1));
    assert_eq!(model::children(&bones, 4 * (n + 1)), children);
    assert_eq!(model::children(&bones, 4 * n).len(), 8 * n);
}

/// Three bones in a circle and one under it, each a step of 1 along x: four steps each.
pub fn walk_takes_n_steps_in_a_circle() {
    let mut bones = rig_of_parents(&[1, 2, 0, 0]);
    for b in &mut bones {
        b.translation[0] = ONE;
    }
    for inverse in build_transformations(&bones).1 {
        assert_eq!(inverse[12], (-5.0f32).to_bits());
    }
}
