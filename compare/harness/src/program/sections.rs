//! Sections that fill a table of the program, and sections that want one row more.

use super::LONGEST;
use cases::records::{bone, bones_block, matrix, skeleton as s};
use cases::trial::{plain_bone, rig_of_chain};
use cases::{Hand, Section};
use oracle::{write, SYSTEM_BASE};

/// Each with the name of what it fills.
pub fn at_the_limits() -> Vec<(&'static str, Vec<u8>)> {
    let mut all: Vec<(&str, Vec<u8>)> = [0, 97, 98, 112, LONGEST, LONGEST + 1].map(|length| ("zeros", vec![0; length])).to_vec();
    all.extend([800, 801].map(|n| ("bones", bones(n))));
    all.extend([800, 801, 819, 820].map(|n| ("bones over the skeleton", bones_over_skeleton(n))));
    all.extend([8_192, 8_193].map(|n| ("buckets", buckets(n))));
    all.extend([4_096, 4_097].map(|n| ("entries", entries(n))));
    for (name, list, size) in
        [("inverse", s::INVERSE, matrix::SIZE), ("local", s::LOCAL, matrix::SIZE), ("parents", s::PARENTS, 2)]
    {
        all.extend([800, 801].map(|n| (name, listed(list, s::BONE_COUNT, n, size))));
    }
    all.extend([8_192, 8_193].map(|n| ("children", listed(s::CHILDREN, s::CHILD_COUNT, n, 2))));
    all.extend(longest_chains().map(|section| ("bytes", section)));
    all
}

/// So many bones and no lists.
fn bones(n: usize) -> Vec<u8> {
    let mut h = Hand::new();
    h.add_bones(&(0..n).map(|i| plain_bone(i, -1)).collect::<Vec<_>>(), &[]);
    h.section().system
}

/// A section of zeros as long as can be, whose bones block lies over the skeleton: 819 bones just fit.
fn bones_over_skeleton(n: u16) -> Vec<u8> {
    let mut c = Section::written(vec![0; LONGEST]);
    c.set_pointer(s::BONES, SYSTEM_BASE + bones_block::HEADER as u64);
    c.set_count(s::BONE_COUNT, n);
    assert_eq!(LONGEST / bone::SIZE, 819);
    c.system
}

/// A bucket array over the whole section: 8,192 buckets just fit.
fn buckets(n: u16) -> Vec<u8> {
    let mut c = Section::written(vec![0; LONGEST]);
    c.set_pointer(s::BUCKETS, SYSTEM_BASE);
    c.set_count(s::BUCKET_COUNT, n);
    // the bucket that lies over the count is an address then
    c.set_count(s::BUCKET_COUNT + 2, (SYSTEM_BASE >> 16) as u16);
    c.system
}

/// So many buckets, each with an entry of its own in a run of zeros.
fn entries(n: usize) -> Vec<u8> {
    let mut h = Hand::new();
    let zeros = h.add(&vec![0; n + 16]);
    h.add_buckets(&(0..n as u64).map(|i| zeros + i).collect::<Vec<_>>());
    h.section().system
}

/// A list alone.
fn listed(list: usize, count: usize, n: usize, size: usize) -> Vec<u8> {
    let mut h = Hand::new();
    let at = h.add(&vec![0; n * size]);
    let mut c = h.section();
    c.set_pointer(list, at);
    c.set_count(count, n as u16);
    c.system
}

/// The longest chain whose section the program takes, and one bone more.
fn longest_chains() -> [Vec<u8>; 2] {
    let section = |n: usize| write(&rig_of_chain(n), [0; 4]).section();
    let n = (0..).find(|&n| section(n + 1).len() > LONGEST).expect("a section grows with its bones");
    [section(n), section(n + 1)]
}
