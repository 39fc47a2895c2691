//! Stored derivations: bones with the tables that the Rust derives from them.

use super::case::{halves, words, Operation, Run, Stored};
use cases::rigs::rig_of;
use cases::trial::plain_bone;
use cases::{rows, Rng};
use link::DONE;
use oracle::{build_bone_tags, build_indices, build_transformations, settle_nan, Bone, Matrix};

/// The 16-bit numbers of a table that `replay` lends; its tables of words have room for 32 bones.
const HALVES: usize = 256;

const TABLE_TOO_SHORT: u32 = 1;
const TOO_MANY_BONES: u32 = 2;

/// The seeds of drawn rigs, three of each size, and of some that are larger.
const SMALL: std::ops::Range<u32> = 101..134;
const LARGE: [(u32, usize); 4] = [(201, 28), (202, 29), (203, 31), (204, 32)];

pub fn cases() -> Vec<Stored> {
    let by_hand = by_hand().into_iter().zip(1..).map(|(bones, number)| derived(number, &bones));
    let refused = [(51, 33, TABLE_TOO_SHORT), (52, 65_535, TABLE_TOO_SHORT), (53, 65_536, TOO_MANY_BONES), (54, u64::MAX, TOO_MANY_BONES)];
    let refused = refused.map(|(number, n, answer)| Stored { number, runs: runs([answer; 3]), call: [n, 0], parts: vec![] });
    let small = SMALL.map(|seed| (seed, (seed - SMALL.start) as usize / 3 + 1));
    let drawn = small.chain(LARGE).map(|(seed, n)| derived(seed, &rig_of(&mut Rng::new(seed as u64), n)));
    by_hand.chain(refused).chain(drawn).collect()
}

/// The three derivations and their answers.
fn runs(answers: [u32; 3]) -> Vec<Run> {
    let calls = [Operation::Tags, Operation::Indices, Operation::Matrices];
    calls.into_iter().zip(answers).map(|(operation, answer)| Run::longer(operation, answer)).collect()
}

/// No bones; the trial rigs of docs/FORMAT.md; a bone that is its own child; a circle and a bone under it; roots that are negative
/// otherwise; a pending list of more than 4 * n bones; three tags in one bucket; a singular rotation.
fn by_hand() -> Vec<Vec<Bone>> {
    let by_position = |parents: &[i16]| (0..).zip(parents.iter().copied()).collect::<Vec<(i16, i16)>>();
    let pairs = [
        vec![],
        by_position(&[-1, 0, 0]),
        by_position(&[-1, 0, 0, 0, 0, 0, 1]),
        vec![(-1, -1)],
        vec![(-3, -3)],
        by_position(&[1, 2, 0, 0]),
        by_position(&[-7, 0, i16::MIN, 2, 32_767]),
        vec![(5, -1), (9, 5)],
        [vec![(0, -1); 3], vec![(20, 0); 6]].concat(),
    ];
    let bone = |(i, &(index, parent)): (usize, &(i16, i16))| Bone { index, ..plain_bone(i, parent) };
    let mut rigs: Vec<Vec<Bone>> = pairs.iter().map(|rig| rig.iter().enumerate().map(bone).collect()).collect();
    rigs.push([0, 11, 22].map(|tag| Bone { tag, ..plain_bone(0, -1) }).to_vec());
    rigs.push(vec![Bone { rotation: [0x3F00_0000, 0x3F00_0000, 0, 0], ..plain_bone(0, -1) }]);
    rigs
}

fn derived(number: u32, bones: &[Bone]) -> Stored {
    let n = bones.len();
    let (buckets, entries) = rows::chains(&build_bone_tags(bones), n);
    // docs/FORMAT.md sizes the child list by the bones, whatever it holds
    let (indices, (parents, children)) = match 8 * (n + 1) {
        length if length > HALVES => (TABLE_TOO_SHORT, Default::default()),
        _ => (DONE, build_indices(bones)),
    };
    let (local, inverse) = build_transformations(bones);
    let matrices = |l: Vec<Matrix>| words(&l.iter().flat_map(settle_nan).collect::<Vec<u32>>());
    let parts = vec![
        words(&rows::bones(&mut Rng::new(number as u64), bones)),
        words(&buckets),
        words(&entries),
        halves(&parents),
        halves(&children),
        matrices(inverse),
        matrices(local),
    ];
    Stored { number, runs: runs([DONE, indices, DONE]), call: [n as u64, 0], parts }
}
