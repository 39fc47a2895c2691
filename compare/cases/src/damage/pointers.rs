//! Changes to pointers, wherever they are stored.

use super::chains::one_entry;
use crate::places::{address, bones, pointers};
use crate::records::{bone, skeleton as s};
use crate::rng::Rng;
use crate::section::Section;
use oracle::{GRAPHICS_BASE, SYSTEM_BASE};

/// Sets one of all pointers, wherever it is stored.
fn set_any_pointer(c: &mut Section, rng: &mut Rng, to: impl FnOnce(&Section, &mut Rng) -> u64) {
    let at = rng.pick(&pointers(c));
    let to = to(c, rng);
    c.put_u64(at, to);
}

pub fn pointer_to_graphics(c: &mut Section, rng: &mut Rng) {
    set_any_pointer(c, rng, |c, rng| GRAPHICS_BASE + rng.below(c.graphics.len() + 2) as u64);
}

pub fn pointer_to_end(c: &mut Section, rng: &mut Rng) {
    set_any_pointer(c, rng, |c, _| SYSTEM_BASE + c.system.len() as u64);
}

pub fn pointer_past_end(c: &mut Section, rng: &mut Rng) {
    set_any_pointer(c, rng, |c, rng| SYSTEM_BASE + c.system.len() as u64 + 1 + rng.below(1000) as u64);
}

pub fn pointer_in_neither(c: &mut Section, rng: &mut Rng) {
    set_any_pointer(c, rng, |_, rng| rng.pick(&[1, 0x4000_0000, 0x7000_0000, 0x1_5000_0000, 0xD000_0000, 1 << 63, u64::MAX]));
}

pub fn pointer_zero(c: &mut Section, rng: &mut Rng) {
    set_any_pointer(c, rng, |_, _| 0);
}

pub fn pointer_anywhere(c: &mut Section, rng: &mut Rng) {
    set_any_pointer(c, rng, address);
}

pub fn alias_children_to_parents(c: &mut Section, _: &mut Rng) {
    c.set_pointer(s::CHILDREN, c.pointer(s::PARENTS));
}

pub fn alias_local_to_inverse(c: &mut Section, _: &mut Rng) {
    c.set_pointer(s::LOCAL, c.pointer(s::INVERSE));
}

pub fn alias_two_pointers(c: &mut Section, rng: &mut Rng) {
    let from = c.pointer(rng.pick(&s::POINTERS));
    c.set_pointer(rng.pick(&s::POINTERS), from);
}

pub fn bones_pointer_below_18(c: &mut Section, rng: &mut Rng) {
    c.set_pointer(s::BONES, rng.below(18) as u64);
}

pub fn bones_pointer_15(c: &mut Section, _: &mut Rng) {
    c.set_pointer(s::BONES, 15);
}

pub fn bones_pointer_at_base(c: &mut Section, rng: &mut Rng) {
    c.set_pointer(s::BONES, rng.pick(&[SYSTEM_BASE, GRAPHICS_BASE, 0x7000_0000]) + rng.below(18) as u64);
}

/// Sets the name address of one of the bones, if there are any.
fn set_name(c: &mut Section, rng: &mut Rng, to: impl FnOnce(&Section, &mut Rng) -> u64) {
    let all = bones(c);
    if !all.is_empty() {
        let at = rng.pick(&all).wrapping_add(bone::NAME as u64);
        let to = to(c, rng);
        c.put_u64(at, to);
    }
}

pub fn name_at_bone(c: &mut Section, rng: &mut Rng) {
    set_name(c, rng, |c, rng| rng.pick(&bones(c)));
}

pub fn name_at_entry(c: &mut Section, rng: &mut Rng) {
    set_name(c, rng, |c, rng| one_entry(c, rng).unwrap_or(0));
}

pub fn name_at_root(c: &mut Section, rng: &mut Rng) {
    set_name(c, rng, |c, _| c.root);
}
