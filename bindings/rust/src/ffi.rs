//! The calls of `librig.a`, and the only `unsafe` of the crate.
//!
//! Every export is proved to end on all input, to touch only the items that it is lent and to keep no address. What is left to us
//! is that addresses and lengths are those of live slices, and that what may be changed is lent once: here all are taken from
//! references of this very call, those that may be changed from `&mut`. No address is null, not that of an empty slice either.
//! And that the library is the one whose exports are declared: each call asks for its number first.
#![allow(unsafe_code)]

mod exports;

use crate::section::Section;
use crate::tables::{DerivedTables, ReadTables};
use exports::*;

/// Panics where the library that is linked has other exports than those that are declared. It is asked in front of every call, at
/// the cost of one that gives a constant, so that nothing is kept from call to call.
fn hold_number() {
    // SAFETY: no memory is lent.
    agree(unsafe { rig_abi() });
}

fn agree(number: u32) {
    assert!(
        number == RIG_ABI,
        "librig.a is of another state than this crate: its exports have number {number}, those declared here {RIG_ABI}; \
         `rt lib` in crates/rig builds it anew, and RIG_LIBRARY must name what it built"
    );
}

pub(crate) fn num_hash_buckets(n: usize) -> usize {
    hold_number();
    // SAFETY: no memory is lent.
    unsafe { rig_num_hash_buckets(n) }
}

pub(crate) fn build_bone_tags(bones: &[u32], n: usize, tables: &mut DerivedTables) -> u32 {
    hold_number();
    let DerivedTables { buckets, entries, .. } = tables;
    let mut count = 0;
    // SAFETY: addresses and lengths of slices borrowed for this call, those that may be changed by `&mut`.
    unsafe {
        rig_build_bone_tags(
            bones.as_ptr(),
            bones.len(),
            n,
            buckets.as_mut_ptr(),
            buckets.len(),
            entries.as_mut_ptr(),
            entries.len(),
            &mut count,
        )
    }
}

/// `count` is the number of child entries.
pub(crate) fn build_indices(bones: &[u32], n: usize, tables: &mut DerivedTables, count: &mut usize) -> u32 {
    hold_number();
    let DerivedTables { parents, children, pending, .. } = tables;
    // SAFETY: addresses and lengths of slices borrowed for this call, those that may be changed by `&mut`.
    unsafe {
        rig_build_indices(
            bones.as_ptr(),
            bones.len(),
            n,
            parents.as_mut_ptr(),
            parents.len(),
            children.as_mut_ptr(),
            children.len(),
            pending.as_mut_ptr(),
            pending.len(),
            count,
        )
    }
}

pub(crate) fn build_transformations(bones: &[u32], n: usize, tables: &mut DerivedTables) -> u32 {
    hold_number();
    let DerivedTables { inverse, local, .. } = tables;
    // SAFETY: addresses and lengths of slices borrowed for this call, those that may be changed by `&mut`.
    unsafe {
        rig_build_transformations(
            bones.as_ptr(),
            bones.len(),
            n,
            inverse.as_mut_ptr(),
            inverse.len(),
            local.as_mut_ptr(),
            local.len(),
        )
    }
}

/// `fields`: the kind word, the four free words, the stored counts of buckets, bones and child entries; then of buckets, bones,
/// inverse and local matrices, parents and children whether the list stands and its length, of matrices in words.
pub(crate) fn read(section: &Section, tables: &mut ReadTables, fields: &mut [usize; 20]) -> u32 {
    hold_number();
    let &Section { system, graphics, root } = section;
    let ReadTables { bones, buckets, entries, inverse, local, parents, children, pool } = tables;
    // SAFETY: addresses and lengths of slices borrowed for this call, those that may be changed by `&mut`.
    unsafe {
        rig_read(
            system.as_ptr(),
            system.len(),
            graphics.as_ptr(),
            graphics.len(),
            root,
            bones.as_mut_ptr(),
            bones.len(),
            buckets.as_mut_ptr(),
            buckets.len(),
            entries.as_mut_ptr(),
            entries.len(),
            inverse.as_mut_ptr(),
            inverse.len(),
            local.as_mut_ptr(),
            local.len(),
            parents.as_mut_ptr(),
            parents.len(),
            children.as_mut_ptr(),
            children.len(),
            pool.as_mut_ptr(),
            pool.len(),
            fields,
        )
    }
}

/// The names of the bones lie in `names`, lent as the system half. `count` is the number of bytes written.
pub(crate) fn write(
    bones: &[u32],
    n: usize,
    names: &[u8],
    free: &[u32; 4],
    tables: &mut DerivedTables,
    out: &mut [u8],
    count: &mut usize,
) -> u32 {
    hold_number();
    let graphics: &[u8] = &[];
    let DerivedTables { buckets, entries, inverse, local, parents, children, pending } = tables;
    // SAFETY: addresses and lengths of slices borrowed for this call, those that may be changed by `&mut`.
    unsafe {
        rig_write(
            bones.as_ptr(),
            bones.len(),
            n,
            names.as_ptr(),
            names.len(),
            graphics.as_ptr(),
            graphics.len(),
            free,
            buckets.as_mut_ptr(),
            buckets.len(),
            entries.as_mut_ptr(),
            entries.len(),
            inverse.as_mut_ptr(),
            inverse.len(),
            local.as_mut_ptr(),
            local.len(),
            parents.as_mut_ptr(),
            parents.len(),
            children.as_mut_ptr(),
            children.len(),
            pending.as_mut_ptr(),
            pending.len(),
            out.as_mut_ptr(),
            out.len(),
            count,
        )
    }
}

/// `count` is the number of bones of an accepted section.
pub(crate) fn check(section: &Section, tables: &mut ReadTables, derived: &mut DerivedTables, count: &mut usize) -> u32 {
    hold_number();
    let &Section { system, graphics, root } = section;
    let ReadTables { bones, buckets, entries, inverse, local, parents, children, pool } = tables;
    // SAFETY: addresses and lengths of slices borrowed for this call, those that may be changed by `&mut`.
    unsafe {
        rig_check(
            system.as_ptr(),
            system.len(),
            graphics.as_ptr(),
            graphics.len(),
            root,
            bones.as_mut_ptr(),
            bones.len(),
            buckets.as_mut_ptr(),
            buckets.len(),
            entries.as_mut_ptr(),
            entries.len(),
            inverse.as_mut_ptr(),
            inverse.len(),
            local.as_mut_ptr(),
            local.len(),
            parents.as_mut_ptr(),
            parents.len(),
            children.as_mut_ptr(),
            children.len(),
            pool.as_mut_ptr(),
            pool.len(),
            derived.buckets.as_mut_ptr(),
            derived.buckets.len(),
            derived.entries.as_mut_ptr(),
            derived.entries.len(),
            derived.inverse.as_mut_ptr(),
            derived.inverse.len(),
            derived.local.as_mut_ptr(),
            derived.local.len(),
            derived.parents.as_mut_ptr(),
            derived.parents.len(),
            derived.children.as_mut_ptr(),
            derived.children.len(),
            derived.pending.as_mut_ptr(),
            derived.pending.len(),
            count,
        )
    }
}

pub(crate) fn lookup(section: &Section, tag: u16, position: &mut usize) -> u32 {
    hold_number();
    let &Section { system, graphics, root } = section;
    // SAFETY: addresses and lengths of slices borrowed for this call, and a position borrowed by `&mut`.
    unsafe { rig_lookup(system.as_ptr(), system.len(), graphics.as_ptr(), graphics.len(), root, tag, position) }
}

pub(crate) fn search(section: &Section, key: u32, tables: &mut ReadTables, position: &mut usize) -> u32 {
    hold_number();
    let &Section { system, graphics, root } = section;
    let ReadTables { bones, buckets, entries, inverse, local, parents, children, pool } = tables;
    // SAFETY: addresses and lengths of slices borrowed for this call, those that may be changed by `&mut`.
    unsafe {
        rig_search(
            system.as_ptr(),
            system.len(),
            graphics.as_ptr(),
            graphics.len(),
            root,
            key,
            bones.as_mut_ptr(),
            bones.len(),
            buckets.as_mut_ptr(),
            buckets.len(),
            entries.as_mut_ptr(),
            entries.len(),
            inverse.as_mut_ptr(),
            inverse.len(),
            local.as_mut_ptr(),
            local.len(),
            parents.as_mut_ptr(),
            parents.len(),
            children.as_mut_ptr(),
            children.len(),
            pool.as_mut_ptr(),
            pool.len(),
            position,
        )
    }
}

pub(crate) fn rage_joaat(bytes: &[u8]) -> u32 {
    hold_number();
    // SAFETY: the address and length of a slice borrowed for this call.
    unsafe { rig_rage_joaat(bytes.as_ptr(), bytes.len()) }
}

/// `fields`: the kind word, the two stored counts, and of each list whether it stands and how many limits it has.
pub(crate) fn joints_read(section: &Section, rotation: &mut [u32], translation: &mut [u32], fields: &mut [u32; 7]) -> u32 {
    hold_number();
    let &Section { system, graphics, root } = section;
    // SAFETY: addresses and lengths of slices borrowed for this call, those that may be changed by `&mut`.
    unsafe {
        rig_joints_read(
            system.as_ptr(),
            system.len(),
            graphics.as_ptr(),
            graphics.len(),
            root,
            rotation.as_mut_ptr(),
            rotation.len(),
            translation.as_mut_ptr(),
            translation.len(),
            fields,
        )
    }
}

/// The limits in the first `r` and `t` rows of two tables. `count` is the number of bytes written.
pub(crate) fn joints_write(rotation: &[u32], r: usize, translation: &[u32], t: usize, out: &mut [u8], count: &mut usize) -> u32 {
    hold_number();
    // SAFETY: addresses and lengths of slices borrowed for this call, those that may be changed by `&mut`.
    unsafe {
        rig_joints_write(
            rotation.as_ptr(),
            rotation.len(),
            r,
            translation.as_ptr(),
            translation.len(),
            t,
            out.as_mut_ptr(),
            out.len(),
            count,
        )
    }
}

pub(crate) fn fresh_rotation_limit() -> [u32; 49] {
    hold_number();
    let mut row = [0; 49];
    // SAFETY: an array borrowed by `&mut` for this call.
    unsafe { rig_fresh_rotation_limit(&mut row) };
    row
}

pub(crate) fn rotation_limit_read(record: &[u8; 192]) -> [u32; 49] {
    hold_number();
    let mut row = [0; 49];
    // SAFETY: arrays borrowed for this call, the one that may be changed by `&mut`.
    unsafe { rig_rotation_limit_read(record, &mut row) };
    row
}

pub(crate) fn rotation_limit_write(row: &[u32; 49], out: &mut [u8]) -> u32 {
    hold_number();
    // SAFETY: an array borrowed for this call, and the address and length of a slice borrowed by `&mut`.
    unsafe { rig_rotation_limit_write(row, out.as_mut_ptr(), out.len()) }
}

pub(crate) fn translation_limit_read(record: &[u8; 64]) -> [u32; 16] {
    hold_number();
    let mut row = [0; 16];
    // SAFETY: arrays borrowed for this call, the one that may be changed by `&mut`.
    unsafe { rig_translation_limit_read(record, &mut row) };
    row
}

pub(crate) fn translation_limit_write(row: &[u32; 16], out: &mut [u8]) -> u32 {
    hold_number();
    // SAFETY: an array borrowed for this call, and the address and length of a slice borrowed by `&mut`.
    unsafe { rig_translation_limit_write(row, out.as_mut_ptr(), out.len()) }
}

#[cfg(test)]
mod tests {
    use super::{agree, RIG_ABI};

    #[test]
    #[should_panic(expected = "its exports have number 4294967295, those declared here")]
    fn another_number_is_noticed() {
        agree(RIG_ABI);
        agree(u32::MAX);
    }
}
