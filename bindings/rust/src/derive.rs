//! The lists that follow from the bones, as writing derives them.

use crate::bone::{Bone, Packed};
use crate::chains::Chains;
use crate::ffi;
use crate::float::{matrices, Matrix};
use crate::refusal::{done, Refusal};
use crate::skeleton::signed;
use crate::tables::DerivedTables;

/// The parents and the child list of some bones.
#[derive(Clone, Debug, PartialEq, Eq)]
pub struct Indices {
    /// Each bone's parent, by position.
    pub parents: Vec<i16>,
    /// Pairs of an index and its parent's, in layers of eight entries.
    pub children: Vec<i16>,
}

/// The matrices of some bones, by position.
#[derive(Clone, Debug, PartialEq, Eq)]
pub struct Transformations {
    /// The inverse of each bone's matrix in the skeleton.
    pub inverse: Vec<Matrix>,
    /// Each bone's matrix from its parent.
    pub local: Vec<Matrix>,
}

/// How many buckets the chains of so many bones have; fewer than two bones have no chains.
///
/// ```
/// assert_eq!(rig::num_hash_buckets(13), 29);
/// ```
pub fn num_hash_buckets(bones: usize) -> usize {
    ffi::num_hash_buckets(bones)
}

/// The chains of some bones. Refused are more than 65,535.
///
/// ```
/// use rig::{build_bone_tags, Bone};
///
/// let bones = [0, 11, 22].map(|tag| Bone { tag, ..Bone::default() });
/// let chains = build_bone_tags(&bones)?;
/// assert_eq!(chains.chain(0).map(|entry| entry.position).collect::<Vec<_>>(), [2, 1, 0]);
/// # Ok::<(), rig::Refusal>(())
/// ```
pub fn build_bone_tags(bones: &[Bone]) -> Result<Chains, Refusal> {
    let (rows, mut tables) = lent(bones);
    done(ffi::build_bone_tags(&rows, bones.len(), &mut tables))?;
    Ok(Chains::of_tables(&tables.buckets, &tables.entries))
}

/// The parents and the child list of some bones. Refused are more than 65,535 bones.
///
/// ```
/// use rig::{build_indices, Bone};
///
/// let bones = [(0, -1), (1, 0), (2, 0)].map(|(index, parent)| Bone { index, parent, ..Bone::default() });
/// assert_eq!(build_indices(&bones)?.children, [1, 0, 2, 0, 2, 0, 2, 0]);
/// # Ok::<(), rig::Refusal>(())
/// ```
pub fn build_indices(bones: &[Bone]) -> Result<Indices, Refusal> {
    let (rows, mut tables) = lent(bones);
    let mut children = 0;
    done(ffi::build_indices(&rows, bones.len(), &mut tables, &mut children))?;
    Ok(Indices { parents: signed(&tables.parents), children: signed(&tables.children[..children]) })
}

/// The inverse and the local matrices of some bones. Refused are more than 65,535 bones.
///
/// ```
/// use rig::{build_transformations, floats, Bone};
///
/// let bone = Bone { translation: floats([1.0, 2.0, 3.0]), ..Bone::default() };
/// let matrices = build_transformations(&[bone])?;
/// assert_eq!(matrices.local[0][12..15], floats([1.0, 2.0, 3.0]));
/// assert_eq!(matrices.inverse[0][12..15], floats([-1.0, -2.0, -3.0]));
/// # Ok::<(), rig::Refusal>(())
/// ```
pub fn build_transformations(bones: &[Bone]) -> Result<Transformations, Refusal> {
    let (rows, mut tables) = lent(bones);
    done(ffi::build_transformations(&rows, bones.len(), &mut tables))?;
    Ok(Transformations { inverse: matrices(&tables.inverse), local: matrices(&tables.local) })
}

/// The rows of the bones, and tables to derive into.
fn lent(bones: &[Bone]) -> (Vec<u32>, DerivedTables) {
    (Packed::new(bones).rows, DerivedTables::new(bones.len()))
}
