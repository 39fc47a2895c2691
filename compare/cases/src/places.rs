//! The places that a section's pointers name, found without the published code. On a damaged section
//! the lists are those that can still be found.

use crate::records::{bone, bones_block, entry, skeleton as s};
use crate::rng::Rng;
use crate::section::Section;
use oracle::{GRAPHICS_BASE, SYSTEM_BASE};

/// Enough for the rigs that are drawn; damaged counts are cut here.
const MOST: u64 = 64;

/// The addresses of the entries that the buckets and links reach.
pub fn entries(c: &Section) -> Vec<u64> {
    let mut found = Vec::new();
    for i in 0..(c.count(s::BUCKET_COUNT) as u64).min(MOST) {
        let mut at = c.u64(c.pointer(s::BUCKETS).wrapping_add(8 * i)).unwrap_or(0);
        while at != 0 && !found.contains(&at) && found.len() < MOST as usize {
            let Some(next) = c.u64(at.wrapping_add(entry::NEXT as u64)) else { break };
            found.push(at);
            at = next;
        }
    }
    found
}

/// The addresses of the bones.
pub fn bones(c: &Section) -> Vec<u64> {
    let first = c.pointer(s::BONES);
    let count = if first == 0 { 0 } else { (c.count(s::BONE_COUNT) as u64).min(MOST) };
    (0..count).map(|i| first.wrapping_add(bone::SIZE as u64 * i)).collect()
}

/// The addresses of all pointers: the skeleton's, the buckets, the links, the names.
pub fn pointers(c: &Section) -> Vec<u64> {
    let mut all: Vec<u64> = s::POINTERS.iter().map(|&p| c.root.wrapping_add(p as u64)).collect();
    let buckets = (c.count(s::BUCKET_COUNT) as u64).min(12);
    all.extend((0..buckets).map(|i| c.pointer(s::BUCKETS).wrapping_add(8 * i)));
    all.extend(entries(c).iter().map(|e| e.wrapping_add(entry::NEXT as u64)));
    all.extend(bones(c).iter().map(|b| b.wrapping_add(bone::NAME as u64)));
    all
}

/// An address: one that is in use, one near the bounds of a half, or one in neither.
pub fn address(c: &Section, rng: &mut Rng) -> u64 {
    let end = |base: u64, half: &[u8]| base + half.len() as u64;
    match rng.below(10) {
        0 => c.root,
        1 => c.pointer(rng.pick(&s::POINTERS)),
        2 => c.pointer(s::BONES).wrapping_sub(bones_block::HEADER as u64),
        3 => pick_or_root(c, rng, entries(c)),
        4 => pick_or_root(c, rng, bones(c)),
        5 => c.u64(rng.pick(&pointers(c))).unwrap_or(0),
        6 => end(SYSTEM_BASE, &c.system).wrapping_add(rng.below(3) as u64).wrapping_sub(1),
        7 => end(GRAPHICS_BASE, &c.graphics).wrapping_add(rng.below(3) as u64).wrapping_sub(1),
        8 => SYSTEM_BASE + rng.below(c.system.len() + 1) as u64,
        _ => rng.pick(&[1, 15, 16, 17, 0x4FFF_FFFF, 0x7000_0000, 0x1_5000_0000, u64::MAX]),
    }
}

fn pick_or_root(c: &Section, rng: &mut Rng, list: Vec<u64>) -> u64 {
    if list.is_empty() {
        c.root
    } else {
        rng.pick(&list)
    }
}
