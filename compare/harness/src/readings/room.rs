//! Where refusal 1 is met. The Rust has no lent tables: its answer in ample ones is what is not yet looked at
//! where 1 comes first.

use super::ask;
use crate::derived::input::{Call, DeriveInput};
use crate::skeletons::read::ReadInput;
use crate::skeletons::write::WriteInput;
use cases::hand::bone_at;
use cases::tables::Table::{self, *};
use cases::tables::WIDTHS;
use cases::trial::{plain_bone, NONE};
use cases::{rows, units, Hand, Section};
use oracle::{Bone, SYSTEM_BASE};

const NOWHERE: u64 = 0x4000_0000;

/// The status of reading where these tables have so many rows, and all others enough.
fn status(s: &Section, lent: &[(Table, usize)]) -> u32 {
    let (mut input, asked) = ReadInput::exact(s.clone(), 1);
    input.lengths = WIDTHS.map(|width| 40 * width);
    for &(table, rows) in lent {
        input.lengths[table as usize] = WIDTHS[table as usize] * rows;
    }
    ask::status(&input, &asked)
}

fn two() -> Vec<Bone> {
    vec![plain_bone(0, NONE), plain_bone(1, 0)]
}

/// One bucket, whose entry links to an address; the section ends with the entry.
fn linked(to: u64) -> Section {
    let mut h = Hand::new();
    h.add_buckets(&[h.end() + 8]);
    h.add(&units::entry(0, 0, to));
    h.section()
}

/// Two bones, the second of which has its name at an address; the section ends with that bone.
fn named(name: u64) -> Section {
    let mut h = Hand::new();
    h.add_bones(&two(), &[0, name]);
    h.section()
}

/// Where the section of two bones ends: an empty name.
fn end() -> u64 {
    bone_at(Hand::new().next_bone(), 2)
}

/// The section of two bones with so many bytes of one of them.
fn cut_in_bone(i: usize, bytes: u64) -> Section {
    ask::cut(&named(0), (bone_at(Hand::new().next_bone(), i) + bytes - SYSTEM_BASE) as usize)
}

/// Its row of the pool comes right with it.
pub fn entry_after_its_bytes_and_before_its_link() {
    let cut = |s: Section| ask::cut(&s, s.system.len() - 1);
    for table in [Entries, Pool] {
        assert_eq!(status(&linked(NOWHERE), &[]), 10);
        assert_eq!(status(&linked(NOWHERE), &[(table, 0)]), 1);
        assert_eq!(status(&cut(linked(0)), &[(table, 0)]), 11);
        assert_eq!(status(&linked(0), &[(table, 0)]), 1);
    }
}

pub fn bucket_after_its_chain() {
    assert_eq!(status(&linked(NOWHERE), &[(Buckets, 0)]), 10);
    assert_eq!(status(&linked(0), &[(Buckets, 0)]), 1);
}

/// One row of the pool is the first bone's.
pub fn name_pool_row_after_the_name() {
    assert_eq!(status(&named(NOWHERE), &[(Pool, 1)]), 10);
    assert_eq!(status(&named(end()), &[(Pool, 1)]), 1);
    assert_eq!(status(&named(end()), &[]), 0);
}

pub fn bone_row_after_its_name() {
    assert_eq!(status(&named(NOWHERE), &[(Bones, 1)]), 10);
    assert_eq!(status(&cut_in_bone(0, 69), &[(Bones, 0)]), 11);
    assert_eq!(status(&cut_in_bone(0, 70), &[(Bones, 0)]), 1);
    assert_eq!(status(&named(0), &[(Bones, 1)]), 1);
    assert_eq!(status(&named(0), &[(Bones, 2)]), 0);
}

/// Without a row for the first bone the second, of which bytes are missing, is not looked at.
pub fn bone_pool_row_after_its_row() {
    let cut = cut_in_bone(1, 69);
    assert_eq!(status(&cut, &[]), 11);
    assert_eq!(status(&cut, &[(Pool, 0)]), 1);
    assert_eq!(status(&cut, &[(Pool, 1)]), 11);
}

/// The pool has rows for the entry, or for the two bones, and none for what holds them.
pub fn bucket_array_and_block_after_their_last_element() {
    let buckets = |second: u64| {
        let mut h = Hand::new();
        let first = h.end() + 16;
        h.add_buckets(&[first, second]);
        h.add(&units::entry(0, 0, 0));
        h.skeleton.bones = 15;
        h.section()
    };
    assert_eq!(status(&buckets(0), &[]), 13);
    assert_eq!(status(&buckets(0), &[(Pool, 1)]), 1);
    assert_eq!(status(&buckets(NOWHERE), &[(Pool, 1)]), 10);
    let mut h = Hand::new();
    h.add_bones(&two(), &[]);
    h.skeleton.inverse = NOWHERE;
    assert_eq!(status(&h.section(), &[]), 10);
    assert_eq!(status(&h.section(), &[(Pool, 2)]), 1);
    assert_eq!(status(&cut_in_bone(1, 69), &[(Pool, 2)]), 11);
}

/// Two matrices with room for one; bytes that are missing, with room for none; no row of the pool before the next list.
pub fn array_rows_all_or_none_then_its_pool_row() {
    let mut h = Hand::new();
    h.skeleton.bone_count = 2;
    h.skeleton.inverse = h.add(&units::matrices(&[[1; 16]; 2]));
    h.skeleton.local = NOWHERE;
    assert_eq!(status(&h.section(), &[]), 10);
    assert_eq!(status(&h.section(), &[(Inverse, 1)]), 1);
    assert_eq!(status(&h.section(), &[(Inverse, 2)]), 10);
    assert_eq!(status(&ask::cut(&h.section(), 200), &[(Inverse, 0), (Pool, 0)]), 11);
    assert_eq!(status(&h.section(), &[(Pool, 0)]), 1);
    assert_eq!(status(&h.section(), &[(Pool, 1)]), 10);
}

/// After the children, of which bytes are missing.
pub fn skeleton_pool_row_last() {
    let mut h = Hand::new();
    (h.skeleton.child_count, h.skeleton.children) = (3, h.add(&[0; 6]));
    assert_eq!(status(&h.section(), &[(Pool, 2)]), 0);
    assert_eq!(status(&h.section(), &[(Pool, 1)]), 1);
    assert_eq!(status(&ask::cut(&h.section(), 117), &[(Pool, 1)]), 11);
}

/// Local at the inverse, children at the parents: as many rows as the list has, and no row of the pool.
pub fn list_given_again_takes_rows_of_its_own_table() {
    let mut h = Hand::new();
    h.skeleton.bone_count = 2;
    h.skeleton.inverse = h.add(&units::matrices(&[[1; 16]; 2]));
    h.skeleton.parents = h.add(&units::indices(&[7, 8]));
    (h.skeleton.local, h.skeleton.children) = (h.skeleton.inverse, h.skeleton.parents);
    // the two lists and the skeleton
    assert_eq!(status(&h.section(), &[(Local, 2), (Children, 2), (Pool, 3)]), 0);
    assert_eq!(status(&h.section(), &[(Local, 1)]), 1);
    assert_eq!(status(&h.section(), &[(Children, 1)]), 1);
    assert_eq!(status(&h.section(), &[(Pool, 2)]), 1);
}

/// Children 8 and pending 4 rows also for no bones, though nothing is stored there; as many rows for each bone more.
pub fn sizes_are_by_n() {
    for n in 0..=2 {
        let bones = rows::placed_bones(&two()[..n], &[Default::default(); 2]);
        for (room, wanted) in [([0; 3], 0), ([0, -1, 0], 1), ([0, 0, -1], 1)] {
            let input = DeriveInput { call: Call::Indices, bones: bones.clone(), n, room, dirt: 1 };
            assert_eq!(ask::derive_status(&input), wanted);
        }
    }
}

/// In deriving and in writing; in writing before a name that gives 4.
pub fn bones_table_with_fewer_rows_than_asked_for() {
    let mut bones = rows::placed_bones(&two(), &[Default::default(); 2]);
    for call in [Call::Tags, Call::Indices, Call::Matrices] {
        let input = DeriveInput { call, bones: bones.clone(), n: 3, room: [0; 3], dirt: 1 };
        assert_eq!(ask::derive_status(&input), 1);
    }
    bones[17] = NOWHERE as u32;
    let (named, _) = WriteInput::exact(bones, 2, Default::default(), [0; 4], 1);
    assert_eq!(ask::write_status(&named), 4);
    assert_eq!(ask::write_status(&WriteInput { n: 3, ..named }), 1);
}

/// What is asked beside the Rust has every lent word compared; here tables that are long, and dirty at entry.
pub fn tables_are_zero_after_none_and_refusals() {
    let none = Section { root: 0, ..named(0) };
    assert_eq!(status(&none, &[]), link::NONE);
    assert_eq!(status(&none, &[(Bones, 0), (Pool, 0)]), link::NONE);
    let (input, asked) = ReadInput::exact(named(NOWHERE), 1);
    assert!(asked.lent(&[100; 8]).tables.iter().flatten().all(|&word| word == 0));
    assert_eq!(ask::status(&ReadInput { lengths: [100; 8], ..input }, &asked), 10);
}
