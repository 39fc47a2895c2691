//! Tables that our library is lent, dirty.

use crate::timing::timed;
use cases::{names, rows};
use link::{Derive, DONE};
use oracle::{num_hash_buckets, Bone};
use std::time::Duration;

/// Our tables for the bones, exactly as long as they must be.
pub struct Lent {
    pub n: usize,
    pub bones: Vec<u32>,
    pub buckets: Vec<u32>,
    pub entries: Vec<u32>,
    pub parents: Vec<u16>,
    pub children: Vec<u16>,
    pub pending: Vec<u32>,
    pub inverse: Vec<u32>,
    pub local: Vec<u32>,
}

impl Lent {
    pub fn new(bones: &[Bone]) -> Self {
        let n = bones.len();
        Lent {
            n,
            bones: rows::placed_bones(bones, &names::packed(bones).1),
            buckets: vec![1; num_hash_buckets(n)],
            entries: vec![1; rows::ENTRY * n],
            parents: vec![1; n],
            children: vec![1; 8 * (n + 1)],
            pending: vec![1; 8 * (n + 1)],
            inverse: vec![1; rows::MATRIX * n],
            local: vec![1; rows::MATRIX * n],
        }
    }

    pub fn tags(&mut self, library: &dyn Derive) -> Duration {
        let mut count = 0;
        timed(|| {
            let status = library.build_bone_tags(&self.bones, self.n, &mut self.buckets, &mut self.entries, &mut count);
            assert_eq!(status, DONE);
        })
    }

    pub fn indices(&mut self, library: &dyn Derive) -> Duration {
        let (mut count, p, c, w) = (0, &mut self.parents, &mut self.children, &mut self.pending);
        timed(|| assert_eq!(library.build_indices(&self.bones, self.n, p, c, w, &mut count), DONE))
    }

    pub fn matrices(&mut self, library: &dyn Derive) -> Duration {
        let (inverse, local) = (&mut self.inverse, &mut self.local);
        timed(|| assert_eq!(library.build_transformations(&self.bones, self.n, inverse, local), DONE))
    }
}
