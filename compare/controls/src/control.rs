//! `Controls`: the section of three bones, with bytes edited; derived matrices of one root.

use crate::section::{check, control, found, read, refusal, shortened, with, Edits};
use crate::sheet::Sheet;
use crate::term::{applied, list, numbers};
use cases::trial::{self, plain_bone, NONE};
use oracle::{build_transformations, settle_nan, Bone, Matrix};

pub fn sheet() -> Sheet {
    let mut s = Sheet::new("format/specs/Controls.antt");
    // the bytes are held by `hold::section`
    s.published("lays", "layout three no_free", "control_bytes");
    let back = read(&[]).ok().flatten().and_then(|r| r.bones);
    assert_eq!(back.as_deref(), Some(&trial::control_rig()[..]), "what is written reads back");
    s.published("reads_back", "bones_back (control_with [])", "done (Some three)");
    checks(&mut s, "accepted", &[]);
    readings(&mut s, "neither_half", &[(43, 64)]);
    readings(&mut s, "upper_bits", &[(332, 1)]);
    readings(&mut s, "parents_past_end", &[(56, 176)]);
    readings(&mut s, "children_past_end", &[(96, 255)]);
    readings(&mut s, "name_at_entry", &[(328, 208), (329, 0)]);
    checks(&mut s, "name_at_its_bone", &[(328, 16), (329, 1)]);
    readings(&mut s, "fourth_bone", &[(94, 4)]);
    readings(&mut s, "pointer15", &[(32, 15), (33, 0), (35, 0)]);
    readings(&mut s, "twelve_before_ten", &[(24, 0), (19, 0), (328, 112), (329, 0), (331, 0)]);
    for (name, n) in [("ninety_eight", 98), ("ninety_seven", 97)] {
        s.joined(name, format!("check (shortened {n}) program_room program_derive_room base"), check(&shortened(n)));
    }
    checks(&mut s, "pointer16", &[(33, 0), (35, 0)]);
    checks(&mut s, "twelve_chains", &[(24, 12)]);
    checks(&mut s, "cut_chain", &[(216, 0), (219, 0)]);
    checks(&mut s, "wrong_position", &[(212, 1)]);
    checks(&mut s, "circular_chain", &[(216, 208)]);
    checks(&mut s, "wrong_parent", &[(914, 1)]);
    checks(&mut s, "wrong_child", &[(928, 2)]);
    checks(&mut s, "wrong_inverse", &[(528, 13)]);
    checks(&mut s, "wrong_local", &[(720, 1)]);
    checks(&mut s, "other_column4", &[(732, 9)]);
    children(&mut s, "children_at_parents", &[(64, 144)]);
    children(&mut s, "children_at_parents_past_end", &[(64, 144), (96, 255)]);
    checks(&mut s, "children_at_parents_refused", &[(64, 144)]);
    kept(&mut s, "local_at_inverse", &[(48, 16)]);
    checks(&mut s, "local_at_inverse_refused", &[(48, 16)]);
    let tags = [5u32, 16, 27, 0];
    let lookups = list(tags.map(|tag| found(&control(&[]), tag)));
    s.joined("lookups", format!("map (lookup (control_with []) base) ({})", numbers(&tags)), lookups);
    lookup(&mut s, "circular_lookup", &[(216, 208)], 16);
    let still = plain_bone(0, NONE);
    let infinite = Bone { translation: [0x7F80_0000, 0, 0], ..still.clone() };
    let nan = Bone { translation: [0x7FA0_0001, 0, 0], kept: [0x7FA0_0001, 0, 0, 0], ..still.clone() };
    s.published("identity_inverse", "inverse_of (still ∷ []) still", numbers(&inverse(&[still], 0)));
    s.published("infinite_inverse", "inverse_of (infinite ∷ []) infinite", numbers(&inverse(&[infinite], 0)));
    s.published("nan_local", "local_of not_a_number", numbers(&settle_nan(&build_transformations(&[nan]).0[0])));
    s
}

/// The inverse of one of the bones, a NaN outside column 4 as 7FC00000 hex.
pub fn inverse(bones: &[Bone], position: usize) -> Matrix {
    settle_nan(&build_transformations(bones).1[position])
}

/// A reading of the control that refuses.
pub fn readings(s: &mut Sheet, name: &'static str, edits: &Edits) {
    s.published(name, with("read_with", edits), refusal(&read(edits)));
}

pub fn checks(s: &mut Sheet, name: &'static str, edits: &Edits) {
    s.joined(name, with("check_with", edits), check(&control(edits)));
}

pub fn lookup(s: &mut Sheet, name: &'static str, edits: &Edits, tag: u32) {
    s.joined(name, format!("lookup ({}) base {tag}", with("control_with", edits)), found(&control(edits), tag));
}

/// The children read.
pub fn children(s: &mut Sheet, name: &'static str, edits: &Edits) {
    let read = read(edits).ok().flatten().expect("a section that reads");
    s.published(name, format!("children_read ({})", with("read_with", edits)), indices(&read.children));
}

/// The parents read.
pub fn parents(s: &mut Sheet, name: &'static str, edits: &Edits) {
    let read = read(edits).ok().flatten().expect("a section that reads");
    s.published(name, format!("parents_read ({})", with("read_with", edits)), indices(&read.parents));
}

/// The kept words of the bones read.
pub fn kept(s: &mut Sheet, name: &'static str, edits: &Edits) {
    let read = read(edits).ok().flatten().expect("a section that reads");
    let kept = list(read.bones.iter().flatten().map(|b| applied("words4", &b.kept)));
    s.published(name, format!("kept_read ({})", with("read_with", edits)), kept);
}

fn indices(list: &Option<Vec<i16>>) -> String {
    numbers(&list.iter().flatten().map(|&v| v as u16).collect::<Vec<_>>())
}
