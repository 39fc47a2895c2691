//! Lookup, name search and check.

use super::{declared::*, Rig};
use crate::{Checks, Halves, ReadTables, WriteTables};

impl Checks for Rig {
    fn lookup(&self, section: Halves, root: u64, tag: u16, position: &mut usize) -> u32 {
        let Halves { system, graphics } = section;
        unsafe { rig_lookup(system.as_ptr(), system.len(), graphics.as_ptr(), graphics.len(), root, tag, position) }
    }

    fn search(&self, section: Halves, root: u64, key: u32, tables: ReadTables, position: &mut usize) -> u32 {
        let Halves { system, graphics } = section;
        let ReadTables { bones, buckets, entries, inverse, local, parents, children, pool } = tables;
        unsafe {
            rig_search(
                system.as_ptr(),
                system.len(),
                graphics.as_ptr(),
                graphics.len(),
                root,
                key,
                bones.as_mut_ptr(),
                bones.len(),
                buckets.as_mut_ptr(),
                buckets.len(),
                entries.as_mut_ptr(),
                entries.len(),
                inverse.as_mut_ptr(),
                inverse.len(),
                local.as_mut_ptr(),
                local.len(),
                parents.as_mut_ptr(),
                parents.len(),
                children.as_mut_ptr(),
                children.len(),
                pool.as_mut_ptr(),
                pool.len(),
                position,
            )
        }
    }

    fn check(&self, section: Halves, root: u64, tables: ReadTables, derived: WriteTables, count: &mut usize) -> u32 {
        let Halves { system, graphics } = section;
        let ReadTables { bones, buckets, entries, inverse, local, parents, children, pool } = tables;
        unsafe {
            rig_check(
                system.as_ptr(),
                system.len(),
                graphics.as_ptr(),
                graphics.len(),
                root,
                bones.as_mut_ptr(),
                bones.len(),
                buckets.as_mut_ptr(),
                buckets.len(),
                entries.as_mut_ptr(),
                entries.len(),
                inverse.as_mut_ptr(),
                inverse.len(),
                local.as_mut_ptr(),
                local.len(),
                parents.as_mut_ptr(),
                parents.len(),
                children.as_mut_ptr(),
                children.len(),
                pool.as_mut_ptr(),
                pool.len(),
                derived.buckets.as_mut_ptr(),
                derived.buckets.len(),
                derived.entries.as_mut_ptr(),
                derived.entries.len(),
                derived.inverse.as_mut_ptr(),
                derived.inverse.len(),
                derived.local.as_mut_ptr(),
                derived.local.len(),
                derived.parents.as_mut_ptr(),
                derived.parents.len(),
                derived.children.as_mut_ptr(),
                derived.children.len(),
                derived.pending.as_mut_ptr(),
                derived.pending.len(),
                count,
            )
        }
    }
}
