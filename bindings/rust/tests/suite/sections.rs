//! The two horses, sections laid by hand, and changes of sections.

use rig::SYSTEM_BASE;

pub const HORSE: &[u8] = include_bytes!(concat!(env!("CARGO_MANIFEST_DIR"), "/../../examples/horse.section"));
pub const CUT: &[u8] = include_bytes!(concat!(env!("CARGO_MANIFEST_DIR"), "/../../examples/horse_cut.section"));

/// Offsets in a skeleton's record.
pub const BUCKETS: usize = 16;
pub const BUCKET_COUNT: usize = 24;
pub const BONES: usize = 32;
pub const INVERSE: usize = 40;
pub const LOCAL: usize = 48;
pub const PARENTS: usize = 56;
pub const CHILDREN: usize = 64;
pub const BONE_COUNT: usize = 94;
pub const CHILD_COUNT: usize = 96;

/// The bytes of a skeleton's record and of a tag entry.
pub const SKELETON: usize = 112;
pub const ENTRY: usize = 16;

pub fn put16(bytes: &mut [u8], at: usize, value: u16) {
    bytes[at..at + 2].copy_from_slice(&value.to_le_bytes());
}

pub fn put64(bytes: &mut [u8], at: usize, value: u64) {
    bytes[at..at + 8].copy_from_slice(&value.to_le_bytes());
}

pub fn get64(bytes: &[u8], at: usize) -> u64 {
    u64::from_le_bytes(bytes[at..at + 8].try_into().expect("8 bytes"))
}

/// The address of an offset in the system half.
pub fn address(at: usize) -> u64 {
    SYSTEM_BASE + at as u64
}

/// Where a pointer of the record leads in the system half.
pub fn target(bytes: &[u8], pointer: usize) -> usize {
    (get64(bytes, pointer) - SYSTEM_BASE) as usize
}

/// A section with one changed byte.
pub fn changed(bytes: &[u8], at: usize) -> Vec<u8> {
    let mut bytes = bytes.to_vec();
    bytes[at] ^= 1;
    bytes
}

/// A skeleton without bones whose only bucket leads to the first of `n` entries, each linked to the next and the last to `end`.
pub fn one_chain(n: usize, end: u64) -> Vec<u8> {
    let first = SKELETON + ENTRY;
    let mut bytes = vec![0; first + ENTRY * n];
    put64(&mut bytes, BUCKETS, address(SKELETON));
    put16(&mut bytes, BUCKET_COUNT, 1);
    put64(&mut bytes, SKELETON, address(first));
    for i in 0..n {
        let at = first + ENTRY * i;
        bytes[at] = 1;
        bytes[at + 4] = i as u8;
        put64(&mut bytes, at + 8, if i + 1 < n { address(at + ENTRY) } else { end });
    }
    bytes
}
