//! Deriving.

use super::{declared::*, Rig};
use crate::Derive;

impl Derive for Rig {
    fn num_hash_buckets(&self, n: usize) -> usize {
        unsafe { rig_num_hash_buckets(n) }
    }

    fn build_bone_tags(&self, bones: &[u32], n: usize, buckets: &mut [u32], entries: &mut [u32], count: &mut usize) -> u32 {
        let (b, e) = (buckets, entries);
        unsafe { rig_build_bone_tags(bones.as_ptr(), bones.len(), n, b.as_mut_ptr(), b.len(), e.as_mut_ptr(), e.len(), count) }
    }

    fn build_indices(
        &self,
        bones: &[u32],
        n: usize,
        parents: &mut [u16],
        children: &mut [u16],
        pending: &mut [u32],
        count: &mut usize,
    ) -> u32 {
        unsafe {
            rig_build_indices(
                bones.as_ptr(),
                bones.len(),
                n,
                parents.as_mut_ptr(),
                parents.len(),
                children.as_mut_ptr(),
                children.len(),
                pending.as_mut_ptr(),
                pending.len(),
                count,
            )
        }
    }

    fn build_transformations(&self, bones: &[u32], n: usize, inverse: &mut [u32], local: &mut [u32]) -> u32 {
        let (i, l) = (inverse, local);
        unsafe { rig_build_transformations(bones.as_ptr(), bones.len(), n, i.as_mut_ptr(), i.len(), l.as_mut_ptr(), l.len()) }
    }
}
