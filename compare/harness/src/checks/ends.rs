//! Changes of a good section at the last item of each list, which only a comparison of all items notices.

use cases::records::{matrix, skeleton as s};
use cases::Section;

/// The number that the check gives, and the change.
pub type End = (u8, fn(&mut Section));

/// In the order of the check.
pub const ENDS: [End; 5] = [
    (21, last_bucket),
    (22, |c| flip(c, s::PARENTS, 2 * c.count(s::BONE_COUNT) as usize)),
    (23, |c| flip(c, s::CHILDREN, 2 * c.count(s::CHILD_COUNT) as usize)),
    // an inverse matrix ends in a word that is +0 in all
    (24, |c| flip(c, s::INVERSE, matrix::SIZE * c.count(s::BONE_COUNT) as usize)),
    // the last word of a local matrix is the bone's own
    (25, |c| flip(c, s::LOCAL, matrix::SIZE * c.count(s::BONE_COUNT) as usize - 4)),
];

/// Flips a bit of the byte before the end of the first so many bytes of a list.
fn flip(c: &mut Section, list: usize, bytes: usize) {
    let at = c.pointer(list) + bytes as u64 - 2;
    let byte = c.u8(at).expect("a byte of the list");
    c.put(at, &[byte ^ 1]);
}

/// Empties the last bucket that is not empty.
fn last_bucket(c: &mut Section) {
    let buckets = (0..c.count(s::BUCKET_COUNT) as u64).map(|i| c.pointer(s::BUCKETS) + 8 * i);
    let last = buckets.rev().find(|&at| c.u64(at) != Some(0)).expect("a bucket with a chain");
    c.put_u64(last, 0);
}
