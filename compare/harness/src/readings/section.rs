//! Lookup, check, program: the lines that rest on the published reading.

use super::ask::{bones, check, rage_joaat, refusal, write};
use crate::model::joaat;
use cases::records::skeleton as s;
use cases::trial::{plain_bone, NONE};
use cases::{Hand, Section};
use oracle::Verdict;

/// A bucket pointer 0 with a stored bucket count is no chain at all.
pub fn chains_are_those_of_the_list_read() {
    let mut section = Section::written(write(&[plain_bone(0, NONE)]).section());
    section.set_count(s::BUCKET_COUNT, 11);
    assert_eq!(check(&section), Verdict::Accepted(1));
}

/// Bones pointer 0 with a stored count of 5 and no lists.
pub fn bones_read_are_counted() {
    let mut h = Hand::new();
    h.skeleton.bone_count = 5;
    assert_eq!(check(&h.section()), Verdict::Accepted(0));
}

/// The root is the section's end: a legal cursor, and no field.
pub fn empty_input_is_11() {
    assert_eq!(refusal(&Section::written(Vec::new())), 11);
}

/// The Rust hashes the mended string; the stored bytes have another hash.
pub fn names_are_mended() {
    let stored = [b'a', 0xFF];
    let mut h = Hand::new();
    let name = h.add(&[stored[0], stored[1], 0]);
    h.add_bones(&[plain_bone(0, NONE)], &[name]);
    assert_eq!(bones(&h.section())[0].name.as_deref(), Some(&stored[..]));
    let mended = String::from_utf8_lossy(&stored);
    assert_ne!(rage_joaat(&mended), joaat(&stored));
    assert_eq!(rage_joaat(&mended), joaat(mended.as_bytes()));
}
