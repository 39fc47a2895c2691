//! Changes to buckets, links and entries.

use crate::places::entries;
use crate::records::{entry, skeleton as s};
use crate::rng::Rng;
use crate::section::Section;

pub fn cut_chain(c: &mut Section, rng: &mut Rng) {
    set_link(c, rng, |_, _, _| 0);
}

pub fn link_to_self(c: &mut Section, rng: &mut Rng) {
    set_link(c, rng, |_, _, this| this);
}

pub fn link_to_other_entry(c: &mut Section, rng: &mut Rng) {
    set_link(c, rng, |c, rng, _| rng.pick(&entries(c)));
}

pub fn link_to_bucket_array(c: &mut Section, rng: &mut Rng) {
    set_link(c, rng, |c, _, _| c.pointer(s::BUCKETS));
}

/// Sets the link of one of the entries, if there are any.
fn set_link(c: &mut Section, rng: &mut Rng, link: impl FnOnce(&Section, &mut Rng, u64) -> u64) {
    if let Some(at) = one_entry(c, rng) {
        let to = link(c, rng, at);
        c.put_u64(at + entry::NEXT as u64, to);
    }
}

pub fn one_entry(c: &Section, rng: &mut Rng) -> Option<u64> {
    let all = entries(c);
    (!all.is_empty()).then(|| rng.pick(&all))
}

/// The address of one of the bucket pointers.
fn one_bucket(c: &Section, rng: &mut Rng) -> u64 {
    c.pointer(s::BUCKETS).wrapping_add(8 * rng.below(c.count(s::BUCKET_COUNT) as usize) as u64)
}

pub fn bucket_to_other_entry(c: &mut Section, rng: &mut Rng) {
    if let Some(to) = one_entry(c, rng) {
        let at = one_bucket(c, rng);
        c.put_u64(at, to);
    }
}

pub fn swap_buckets(c: &mut Section, rng: &mut Rng) {
    let (a, b) = (one_bucket(c, rng), one_bucket(c, rng));
    if let (Some(x), Some(y)) = (c.u64(a), c.u64(b)) {
        c.put_u64(a, y);
        c.put_u64(b, x);
    }
}

pub fn entry_position(c: &mut Section, rng: &mut Rng) {
    if let Some(at) = one_entry(c, rng) {
        c.put_u32(at + entry::POSITION as u64, rng.below(14) as u32);
    }
}

pub fn entry_tag(c: &mut Section, rng: &mut Rng) {
    if let Some(at) = one_entry(c, rng) {
        c.put_u32(at + entry::TAG as u64, rng.below(70_000) as u32);
    }
}
