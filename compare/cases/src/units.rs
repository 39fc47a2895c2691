//! Named units from which test bytes are built, and the records as units (docs/FORMAT.md, "Records").

use crate::records::{joints, skeleton};
use oracle::{Bone, Matrix};

/// A stored number or a run of bytes.
#[derive(Clone, Debug)]
pub enum Unit {
    U16(u16),
    U32(u32),
    U64(u64),
    Bytes(Vec<u8>),
}

pub fn u16(v: u16) -> Unit {
    Unit::U16(v)
}

pub fn u32(v: u32) -> Unit {
    Unit::U32(v)
}

pub fn u64(v: u64) -> Unit {
    Unit::U64(v)
}

pub fn zeros(n: usize) -> Unit {
    Unit::Bytes(vec![0; n])
}

pub fn words(v: &[u32]) -> Unit {
    Unit::Bytes(v.iter().flat_map(|w| w.to_le_bytes()).collect())
}

/// The units one behind the other, little-endian.
pub fn lay(units: &[Unit]) -> Vec<u8> {
    let mut out = Vec::new();
    for unit in units {
        match unit {
            Unit::U16(v) => out.extend(v.to_le_bytes()),
            Unit::U32(v) => out.extend(v.to_le_bytes()),
            Unit::U64(v) => out.extend(v.to_le_bytes()),
            Unit::Bytes(b) => out.extend(b),
        }
    }
    out
}

/// The fields of a skeleton record that reading looks at.
#[derive(Clone, Debug, Default)]
pub struct Skeleton {
    pub free: [u32; 4],
    pub buckets: u64,
    pub bucket_count: u16,
    /// The pointer to the first bone.
    pub bones: u64,
    pub inverse: u64,
    pub local: u64,
    pub parents: u64,
    pub children: u64,
    pub bone_count: u16,
    pub child_count: u16,
}

impl Skeleton {
    pub fn bytes(&self) -> Vec<u8> {
        lay(&[
            u32(skeleton::KIND_WORD),
            u32(1),
            u64(0),
            u64(self.buckets),
            u16(self.bucket_count),
            u16(self.bone_count.min(self.bucket_count)),
            u32(self.free[0]),
            u64(self.bones),
            u64(self.inverse),
            u64(self.local),
            u64(self.parents),
            u64(self.children),
            u64(0),
            words(&self.free[1..]),
            u16(1),
            u16(self.bone_count),
            u16(self.child_count),
            zeros(14),
        ])
    }
}

/// A bone's record.
pub fn bone(b: &Bone, name: u64) -> Vec<u8> {
    lay(&[
        words(&b.rotation),
        words(&b.translation),
        u32(0),
        words(&b.scale),
        u32(crate::trial::ONE),
        u16(b.next_sibling as u16),
        u16(b.parent as u16),
        u32(0),
        u64(name),
        u16(b.flags),
        u16(b.index as u16),
        u16(b.tag),
        u16(b.index as u16), // the second index
        u64(0),
    ])
}

/// The bones block's header.
pub fn block_header(bones: u32) -> Vec<u8> {
    lay(&[u32(bones), zeros(12)])
}

/// A tag entry.
pub fn entry(tag: u32, position: u32, next: u64) -> Vec<u8> {
    lay(&[u32(tag), u32(position), u64(next)])
}

pub fn pointers(list: &[u64]) -> Vec<u8> {
    lay(&list.iter().copied().map(u64).collect::<Vec<_>>())
}

pub fn matrices(list: &[Matrix]) -> Vec<u8> {
    lay(&list.iter().map(|m| words(m)).collect::<Vec<_>>())
}

pub fn indices(list: &[i16]) -> Vec<u8> {
    lay(&list.iter().map(|&v| u16(v as u16)).collect::<Vec<_>>())
}

/// A joints record.
pub fn joints(rotations: u64, translations: u64, rotation_count: u16, translation_count: u16) -> Vec<u8> {
    lay(&[
        u32(joints::KIND_WORD),
        u32(1),
        u64(0),
        u64(rotations),
        u64(translations),
        zeros(16),
        u16(rotation_count),
        u16(translation_count),
        u16(0),
        u16(1),
        u64(0),
    ])
}
