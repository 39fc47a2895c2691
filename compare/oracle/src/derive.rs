//! The published derivations on plain bones (docs/FORMAT.md, "Deriving").

use crate::bone::{matrix_words, published, Bone, Matrix};
use rage_formats::blocks::base::PointerArray64;
use rage_formats::blocks::skeleton::{self, SkeletonBoneTag};
use rage_formats::blocks::{BlockId, Graph};

pub use rage_formats::blocks::skeleton::num_hash_buckets;

/// For each bucket the tags and positions met along its chain.
pub type Chains = Vec<Vec<(u32, u32)>>;

/// The words of column 4, in which copied values keep their bits.
pub const COLUMN4: [usize; 4] = [3, 7, 11, 15];

/// What docs/FORMAT.md makes of a NaN in a derived matrix word outside column 4.
pub const SETTLED_NAN: u32 = 0x7FC0_0000;

fn published_bones(bones: &[Bone]) -> Vec<skeleton::Bone> {
    bones.iter().map(|b| published(b, None)).collect()
}

/// The chains; none for fewer than two bones.
pub fn build_bone_tags(bones: &[Bone]) -> Chains {
    let mut g = Graph::new();
    let Some(array) = skeleton::build_bone_tags(&mut g, &published_bones(bones)) else { return Vec::new() };
    g.get::<PointerArray64>(array).items.iter().map(|&first| chain(&g, first)).collect()
}

fn chain(g: &Graph, first: Option<BlockId>) -> Vec<(u32, u32)> {
    let (mut met, mut at) = (Vec::new(), first);
    while let Some(id) = at {
        let e = g.get::<SkeletonBoneTag>(id);
        met.push((e.tag, e.index));
        at = e.next;
    }
    met
}

/// The parents list and the children list.
pub fn build_indices(bones: &[Bone]) -> (Vec<i16>, Vec<i16>) {
    skeleton::build_indices(&published_bones(bones))
}

/// The local and the inverse matrices, every word as the published code computes it.
pub fn build_transformations(bones: &[Bone]) -> (Vec<Matrix>, Vec<Matrix>) {
    let (local, inverse) = skeleton::build_transformations(&published_bones(bones));
    let words = |l: Vec<_>| l.iter().map(matrix_words).collect();
    (words(local), words(inverse))
}

/// The matrix with the listed difference: a NaN outside column 4 is 7FC00000 hex.
pub fn settle_nan(m: &Matrix) -> Matrix {
    std::array::from_fn(|i| if !COLUMN4.contains(&i) && f32::from_bits(m[i]).is_nan() { SETTLED_NAN } else { m[i] })
}
