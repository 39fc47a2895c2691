//! The definitions of the format written anew from its words, as a second opinion on the published code.

use oracle::{num_hash_buckets, Bone, Chains};

/// Bucket b's chain: every position whose tag modulo the bucket count is b, strictly decreasing.
pub fn chains(bones: &[Bone]) -> Chains {
    if bones.len() < 2 {
        return Vec::new();
    }
    let buckets = num_hash_buckets(bones.len());
    let mut chains = vec![Vec::new(); buckets];
    for (position, b) in bones.iter().enumerate().rev() {
        chains[b.tag as usize % buckets].push((b.tag as u32, position as u32));
    }
    chains
}

/// The child list with a pending list cut at `most` after every step.
pub fn children(bones: &[Bone], most: usize) -> Vec<i16> {
    let n = bones.len();
    let of = |b: usize| (0..n).filter(move |&i| bones[i].parent == bones[b].index);
    let mut pending: Vec<usize> = (0..n).filter(|&i| bones[i].parent < 0).flat_map(of).take(most).collect();
    let mut list = Vec::new();
    for _layer in 0..=n {
        if pending.is_empty() {
            break;
        }
        let layer: Vec<usize> = pending.drain(..pending.len().min(4)).collect();
        pending = layer.iter().copied().flat_map(of).chain(pending).take(most).collect();
        let last = *layer.last().expect("a layer has a bone");
        for &b in layer.iter().chain(std::iter::repeat(&last)).take(4) {
            list.extend([bones[b].index, bones[b].parent]);
        }
    }
    list
}

/// One-at-a-time over bytes, every sum modulo 2 to the 32.
pub fn joaat(bytes: &[u8]) -> u32 {
    const MODULUS: u64 = 1 << 32;
    let sum = |a: u64, b: u64| (a + b) % MODULUS;
    let mut h = 0u64;
    for &b in bytes {
        h = sum(h, b as u64);
        h = sum(h, h * 1024 % MODULUS);
        h ^= h / 64;
    }
    h = sum(h, h * 8 % MODULUS);
    h ^= h / 2048;
    sum(h, h * 32_768 % MODULUS) as u32
}

/// What demand 3 says of a lookup: the greatest position that bears the tag.
pub fn greatest_position(bones: &[Bone], tag: u32) -> Option<u32> {
    bones.iter().rposition(|b| b.tag as u32 == tag).map(|p| p as u32)
}
