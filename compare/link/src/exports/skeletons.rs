//! Reading and writing of skeletons.

use super::{declared::*, Rig};
use crate::{Halves, ReadTables, SkeletonFields, Skeletons, WriteTables, WrittenBones};

impl Skeletons for Rig {
    fn read(&self, section: Halves, root: u64, tables: ReadTables, fields: &mut SkeletonFields) -> u32 {
        let Halves { system, graphics } = section;
        let ReadTables { bones, buckets, entries, inverse, local, parents, children, pool } = tables;
        unsafe {
            rig_read(
                system.as_ptr(),
                system.len(),
                graphics.as_ptr(),
                graphics.len(),
                root,
                bones.as_mut_ptr(),
                bones.len(),
                buckets.as_mut_ptr(),
                buckets.len(),
                entries.as_mut_ptr(),
                entries.len(),
                inverse.as_mut_ptr(),
                inverse.len(),
                local.as_mut_ptr(),
                local.len(),
                parents.as_mut_ptr(),
                parents.len(),
                children.as_mut_ptr(),
                children.len(),
                pool.as_mut_ptr(),
                pool.len(),
                fields,
            )
        }
    }

    fn write(&self, bones: WrittenBones, tables: WriteTables, out: &mut [u8], count: &mut usize) -> u32 {
        let WrittenBones { table, n, names: Halves { system, graphics }, free } = bones;
        let WriteTables { buckets, entries, inverse, local, parents, children, pending } = tables;
        unsafe {
            rig_write(
                table.as_ptr(),
                table.len(),
                n,
                system.as_ptr(),
                system.len(),
                graphics.as_ptr(),
                graphics.len(),
                free,
                buckets.as_mut_ptr(),
                buckets.len(),
                entries.as_mut_ptr(),
                entries.len(),
                inverse.as_mut_ptr(),
                inverse.len(),
                local.as_mut_ptr(),
                local.len(),
                parents.as_mut_ptr(),
                parents.len(),
                children.as_mut_ptr(),
                children.len(),
                pending.as_mut_ptr(),
                pending.len(),
                out.as_mut_ptr(),
                out.len(),
                count,
            )
        }
    }
}
