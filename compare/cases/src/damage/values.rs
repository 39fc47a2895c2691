//! Changes to counts, bones, listed values, single bytes, the section's end and the root.

use crate::places::{address, bones};
use crate::records::{bone, skeleton as s};
use crate::rng::Rng;
use crate::section::Section;

fn change_count(c: &mut Section, rng: &mut Rng, change: impl FnOnce(u16) -> u16) {
    let field = rng.pick(&s::COUNTS);
    c.set_count(field, change(c.count(field)));
}

pub fn count_plus_one(c: &mut Section, rng: &mut Rng) {
    change_count(c, rng, |v| v.wrapping_add(1));
}

pub fn count_minus_one(c: &mut Section, rng: &mut Rng) {
    change_count(c, rng, |v| v.saturating_sub(1));
}

pub fn count_zero(c: &mut Section, rng: &mut Rng) {
    change_count(c, rng, |_| 0);
}

pub fn count_any(c: &mut Section, rng: &mut Rng) {
    let v = rng.next() as u16 >> rng.below(16);
    change_count(c, rng, |_| v);
}

pub fn bone_parent(c: &mut Section, rng: &mut Rng) {
    set_bone_u16(c, rng, bone::PARENT);
}

pub fn bone_tag(c: &mut Section, rng: &mut Rng) {
    set_bone_u16(c, rng, bone::TAG);
}

fn set_bone_u16(c: &mut Section, rng: &mut Rng, field: usize) {
    let all = bones(c);
    if !all.is_empty() {
        let at = rng.pick(&all).wrapping_add(field as u64);
        c.put_u16(at, rng.below(16) as u16);
    }
}

pub fn listed_parent(c: &mut Section, rng: &mut Rng) {
    let at = c.pointer(s::PARENTS).wrapping_add(2 * rng.below(c.count(s::BONE_COUNT) as usize) as u64);
    c.put_u16(at, rng.below(16) as u16);
}

pub fn listed_child(c: &mut Section, rng: &mut Rng) {
    let at = c.pointer(s::CHILDREN).wrapping_add(2 * rng.below(c.count(s::CHILD_COUNT) as usize) as u64);
    c.put_u16(at, rng.below(16) as u16);
}

pub fn inverse_word(c: &mut Section, rng: &mut Rng) {
    flip_word(c, rng, s::INVERSE);
}

pub fn local_word(c: &mut Section, rng: &mut Rng) {
    flip_word(c, rng, s::LOCAL);
}

/// Flips one bit of a matrix list.
fn flip_word(c: &mut Section, rng: &mut Rng, list: usize) {
    let at = c.pointer(list).wrapping_add(4 * rng.below(16 * c.count(s::BONE_COUNT) as usize) as u64);
    if let Some(word) = c.u32(at) {
        c.put_u32(at, word ^ 1 << rng.below(32));
    }
}

pub fn flip_byte(c: &mut Section, rng: &mut Rng) {
    let at = rng.below(c.system.len());
    if let Some(byte) = c.system.get_mut(at) {
        *byte ^= 1 + rng.below(255) as u8;
    }
}

pub fn cut_end(c: &mut Section, rng: &mut Rng) {
    let length = rng.below(c.system.len() + 1);
    c.system.truncate(length);
}

pub fn root_elsewhere(c: &mut Section, rng: &mut Rng) {
    c.root = if rng.one_in(4) { 0 } else { address(c, rng) };
}
