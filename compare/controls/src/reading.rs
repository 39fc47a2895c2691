//! `ReadingControls`: halves and names, fields and their widths, the pool, the bytes that must stand, the order of reading, and where
//! 1 is met.

use crate::control::{checks, children, kept, parents, readings};
use crate::lent::{self, ReadAnswer};
use crate::section::{check, control, empty, read, refusal, with, Edits};
use crate::sheet::Sheet;
use crate::term::{applied, list, numbers, row};
use cases::tables::PROGRAM;
use cases::Section;
use oracle::{Bone, NameBytes, GRAPHICS_BASE, SYSTEM_BASE};

pub fn sheet() -> Sheet {
    let mut s = Sheet::new("format/specs/ReadingControls.antt");
    names(&mut s);
    fields(&mut s);
    let shared = [(488, 0), (489, 2)];
    let bones = read(&shared).ok().flatten().and_then(|r| r.bones).expect("bones");
    let listed = list(bones.iter().map(|b| b.name.as_ref().map_or("None".into(), |name| format!("Some ({})", numbers(name)))));
    s.published("shared_name", format!("names_read (bones_back ({}))", with("control_with", &shared)), listed);
    readings(&mut s, "bone_at_entry", &[(32, 208), (33, 0)]);
    readings(&mut s, "later_replaces", &[(328, 16), (329, 1), (488, 16), (489, 1)]);
    readings(&mut s, "block_at_entry", &[(32, 224), (33, 0)]);
    parents(&mut s, "parents_at_inverse", &[(56, 16), (57, 2)]);
    children(&mut s, "both_at_block", &[(56, 0), (57, 1), (64, 0), (65, 1)]);
    parents(&mut s, "parents_at_name", &[(56, 0), (57, 2)]);
    kept(&mut s, "no_local", &[(48, 0), (49, 0), (51, 0), (540, 7)]);
    checks(&mut s, "second_index", &[(342, 9)]);
    checks(&mut s, "kind_word", &[(0, 1)]);
    checks(&mut s, "constant_at44", &[(319, 0)]);
    checks(&mut s, "block_count", &[(256, 9)]);
    checks_empty(&mut s, "bone70", &[(32, 42), (35, 80), (94, 1)]);
    checks_empty(&mut s, "bone69", &[(32, 43), (35, 80), (94, 1)]);
    checks_empty(&mut s, "entry16", &[(16, 104), (19, 80), (24, 1), (104, 96), (107, 80)]);
    checks_empty(&mut s, "entry15", &[(16, 104), (19, 80), (24, 1), (104, 97), (107, 80)]);
    checks_empty(&mut s, "empty_block", &[(32, 128), (35, 80)]);
    checks_empty(&mut s, "block_past_end", &[(32, 129), (35, 80)]);
    readings(&mut s, "buckets_past_end", &[(16, 96), (17, 3)]);
    room(&mut s);
    readings(&mut s, "buckets_before13", &[(32, 15), (33, 0), (35, 0), (19, 64)]);
    readings(&mut s, "bones_before_inverse", &[(32, 15), (33, 0), (35, 0), (43, 64)]);
    readings(&mut s, "inverse_before_local", &[(43, 64), (50, 1)]);
    readings(&mut s, "local_before_parents", &[(51, 64), (58, 1)]);
    checks(&mut s, "name_at_root", &[(328, 0), (329, 0)]);
    checks(&mut s, "name_at_block", &[(328, 0), (329, 1)]);
    checks(&mut s, "link_at_buckets", &[(248, 112), (251, 80)]);
    let without = [(33, 0), (35, 0)];
    s.published(
        "matrices_without_bones",
        format!("inverse_count ({})", with("read_with", &without)),
        inverse_count(read(&without)),
    );
    let nowhere = lent::read(&Section { root: 0, ..control(&[]) }, PROGRAM);
    assert!(matches!(nowhere, Ok(None)), "root 0");
    s.published("root_zero", "read (control_with []) program_room 0", "done None");
    s
}

fn names(s: &mut Sheet) {
    let (system, graphics) = ([1u8], [2u8]);
    let halves = format!("halves ({}) ({})", numbers(&system), numbers(&graphics));
    let part = NameBytes::new(&system, &graphics).at(GRAPHICS_BASE, 1).map(numbers);
    s.published("graphics_half", format!("part ({halves}) 0x6000_0000 1"), format!("done ({})", part.expect("a byte")));
    let second = NameBytes::new(&[], &[1, 2]).at(GRAPHICS_BASE + 1, 1).map(numbers).expect("a byte");
    s.published("graphics_second", "part (halves [] (1 ∷ 2 ∷ [])) 0x6000_0001 1", format!("done ({second})"));
    checks(s, "name_at_end", &[(328, 176), (329, 3)]);
    let long = NameBytes::new(&[65; 300], &[]).name(SYSTEM_BASE).expect("a name");
    let bytes = long.bytes().map(|b| b.to_string());
    let left = format!("name_at (halves ({}) []) base", list(bytes));
    s.published("long_name", left, format!("done (place_at base {})", long.len()));
    let c = control(&[]);
    let lost = NameBytes::new(&c.system, &c.graphics).at(0x7000_0000, 2).unwrap_or(&[]).to_vec();
    s.published("name_outside", "name_bytes (control_with []) (place_at 0x7000_0000 2)", numbers(&lost));
}

/// Bytes set to 1 that one field alone has, and the fields read.
fn fields(s: &mut Sheet) {
    let ones: [(&'static str, &[u32]); 2] =
        [("pointers_of64_bits", &[20, 36, 44, 52, 60, 68, 220]), ("counts_of16_bits", &[97, 95])];
    for (name, offsets) in ones {
        let left = format!("map (λ a. read_with ((a, 1) ∷ [])) ({})", numbers(offsets));
        s.published(name, left, list(offsets.iter().map(|&at| refusal(&read(&[(at as usize, 1)])))));
    }
    let edits = [(337, 1), (339, 1), (341, 1)];
    let bones = read(&edits).ok().flatten().and_then(|r| r.bones).expect("bones");
    let words = |b: &Bone| [b.flags, b.index as u16, b.tag, b.next_sibling as u16, b.parent as u16];
    let listed = list(bones.iter().map(|b| format!("({})", numbers(&words(b)))));
    s.published("fields_of16_bits", format!("fields_read ({})", with("read_with", &edits)), listed);
    let edits = [(28, 1), (80, 2), (84, 3), (88, 4)];
    let r = read(&edits).ok().flatten().expect("a section that reads");
    let counts = [r.bucket_count, r.bone_count, r.child_count].map(u32::from);
    let left = format!("skeleton_fields (read_skeleton ({}) program_room base no_rows)", with("control_with", &edits));
    s.published("skeleton_read", left, row(&[&[r.kind][..], &r.free, &counts].concat()));
}

fn checks_empty(s: &mut Sheet, name: &'static str, edits: &Edits) {
    s.joined(name, with("check_empty_with", edits), check(&empty(edits)));
}

/// The rows lent: `room_with` bones, buckets, entries, inverse matrices, pool rows; the other tables have the program's.
fn lent_rows([bones, buckets, entries, inverse, pool]: [usize; 5]) -> [usize; 8] {
    [bones, buckets, entries, inverse, PROGRAM[4], PROGRAM[5], PROGRAM[6], pool]
}

fn room(s: &mut Sheet) {
    const FULL: [usize; 5] = [3, 11, 3, 3, 15];
    let without = |table: usize| std::array::from_fn(|t| if t == table { 0 } else { FULL[t] });
    let cases: [(&'static str, &Edits, [usize; 5]); 9] = [
        ("name_before_row", &[(332, 1)], without(0)),
        ("chain_before_bucket", &[(112, 1)], without(1)),
        ("entry_before_row", &[(155, 64)], without(2)),
        ("bytes_before_rows", &[(43, 64)], without(3)),
        ("no_bone_row", &[], without(0)),
        ("no_inverse_row", &[], without(3)),
        ("pool_full", &[], [3, 11, 3, 3, 14]),
        ("pool_holds", &[], FULL),
        ("self_link", &[(216, 208)], [3, 11, 1, 3, 15]),
    ];
    for (name, edits, rows) in cases {
        let read = lent::read(&control(edits), lent_rows(rows));
        let term = applied("room_with", &rows.map(|n| n as u64));
        let left = format!("read ({}) ({term}) base", with("control_with", edits));
        match read {
            Err(number) => s.joined(name, left, format!("refused {number}")),
            read => s.joined(name, format!("inverse_count ({left})"), inverse_count(read)),
        }
    }
}

/// The words of the inverse matrices read.
fn inverse_count(read: ReadAnswer) -> String {
    let read = read.ok().flatten().expect("a section that reads");
    read.inverse.map_or(0, |list| 16 * list.len()).to_string()
}
