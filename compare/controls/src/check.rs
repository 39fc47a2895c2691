//! `CheckControls`: lookups, and the check.

use crate::control::{checks, lookup};
use crate::lent;
use crate::section::{check, control, found, shortened, with};
use crate::sheet::Sheet;
use crate::term::{answer, applied};
use cases::tables::PROGRAM;
use cases::Section;

pub fn sheet() -> Sheet {
    let mut s = Sheet::new("format/specs/CheckControls.antt");
    let nowhere = Section { root: 0, ..control(&[]) };
    lookup(&mut s, "fourteen", &[(94, 2)], 27);
    lookup(&mut s, "fourteen_first", &[(94, 1), (219, 64)], 16);
    lookup(&mut s, "key_of32_bits", &[(210, 1)], 5);
    lookup(&mut s, "position_of32_bits", &[(214, 1)], 5);
    lookup(&mut s, "no_bucket_pointer", &[(16, 0), (19, 0)], 5);
    lookup(&mut s, "no_bucket_count", &[(24, 0)], 5);
    lookup(&mut s, "whole_array", &[(16, 128), (17, 3)], 0);
    s.joined("lookup_in98", "lookup (shortened 98) base 0", found(&shortened(98), 0));
    s.joined("lookup_at_zero", "lookup (control_with []) 0 5", found(&nowhere, 5));
    checks(&mut s, "parents_first", &[(914, 1), (928, 2), (528, 13), (720, 1)]);
    checks(&mut s, "children_first", &[(928, 2), (528, 13), (720, 1)]);
    checks(&mut s, "inverse_first", &[(528, 13), (720, 1)]);
    let one = lent::check(&control(&[(216, 0), (219, 0)]), PROGRAM, [0; 7]);
    let left = "check (control_with ((216, 0) ∷ (219, 0) ∷ [])) program_room no_deriving base";
    s.text("one_before21", left, answer(one));
    let (boneless, rows) = ([(33, 0), (35, 0)], [0, 0, 0, 0, 0, 8, 4]);
    let room = applied("lent_rows", &rows.map(|n| n as u64));
    let left = format!("check ({}) program_room ({room}) base", with("control_with", &boneless));
    s.text("rows_of_no_bones", left, answer(lent::check(&control(&boneless), PROGRAM, rows)));
    checks(&mut s, "no_children", &[(64, 0), (65, 0), (67, 0)]);
    checks(&mut s, "long_chain", &[(248, 208), (251, 80)]);
    checks(&mut s, "entry_tag_of32_bits", &[(210, 1)]);
    s.joined("check_at_zero", "check (control_with []) program_room program_derive_room 0", check(&nowhere));
    s
}
