//! Sections laid by hand for single questions: a skeleton and what is put behind it.

use crate::records::{bone, bones_block, skeleton};
use crate::section::Section;
use crate::units;
use oracle::{Bone, SYSTEM_BASE};

/// A system half: `front` bytes, the skeleton, then the parts in the order added.
pub struct Hand {
    pub skeleton: units::Skeleton,
    pub graphics: Vec<u8>,
    front: usize,
    parts: Vec<u8>,
}

impl Hand {
    pub fn new() -> Self {
        Hand::behind(0)
    }

    /// The skeleton lies behind so many bytes.
    pub fn behind(front: usize) -> Self {
        Hand { skeleton: units::Skeleton::default(), graphics: Vec::new(), front, parts: Vec::new() }
    }

    pub fn root(&self) -> u64 {
        SYSTEM_BASE + self.front as u64
    }

    /// The address of the section's end, where the next part will lie.
    pub fn end(&self) -> u64 {
        self.root() + (skeleton::SIZE + self.parts.len()) as u64
    }

    /// Adds a part; gives its address.
    pub fn add(&mut self, bytes: &[u8]) -> u64 {
        let at = self.end();
        self.parts.extend(bytes);
        at
    }

    /// Adds a bones block and points the skeleton at it; gives the address of bone 0.
    pub fn add_bones(&mut self, bones: &[Bone], names: &[u64]) -> u64 {
        self.add(&units::block_header(bones.len() as u32));
        let first = self.end();
        for (i, b) in bones.iter().enumerate() {
            self.add(&units::bone(b, names.get(i).copied().unwrap_or(0)));
        }
        self.skeleton.bones = first;
        self.skeleton.bone_count = bones.len() as u16;
        first
    }

    /// The address that bone 0 will have if a bones block is added next.
    pub fn next_bone(&self) -> u64 {
        self.end() + bones_block::HEADER as u64
    }

    /// Adds a bucket array and points the skeleton at it.
    pub fn add_buckets(&mut self, firsts: &[u64]) -> u64 {
        let at = self.add(&units::pointers(firsts));
        self.skeleton.buckets = at;
        self.skeleton.bucket_count = firsts.len() as u16;
        at
    }

    pub fn section(&self) -> Section {
        let system = [&vec![0; self.front][..], &self.skeleton.bytes(), &self.parts].concat();
        Section { system, graphics: self.graphics.clone(), root: self.root() }
    }
}

impl Default for Hand {
    fn default() -> Self {
        Hand::new()
    }
}

/// The address of bone `i` behind bone 0.
pub fn bone_at(first: u64, i: usize) -> u64 {
    first + (bone::SIZE * i) as u64
}
