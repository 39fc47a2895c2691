//! Joints.

use super::{declared::*, Rig};
use crate::{JointFields, Joints, RotationRecord, RotationRow, TranslationRecord, TranslationRow};

impl Joints for Rig {
    fn joints_read(
        &self,
        system: &[u8],
        graphics: &[u8],
        root: u64,
        rotation: &mut [u32],
        translation: &mut [u32],
        fields: &mut JointFields,
    ) -> u32 {
        unsafe {
            rig_joints_read(
                system.as_ptr(),
                system.len(),
                graphics.as_ptr(),
                graphics.len(),
                root,
                rotation.as_mut_ptr(),
                rotation.len(),
                translation.as_mut_ptr(),
                translation.len(),
                fields,
            )
        }
    }

    fn joints_write(&self, rotation: &[u32], r: usize, translation: &[u32], t: usize, out: &mut [u8], count: &mut usize) -> u32 {
        unsafe {
            rig_joints_write(
                rotation.as_ptr(),
                rotation.len(),
                r,
                translation.as_ptr(),
                translation.len(),
                t,
                out.as_mut_ptr(),
                out.len(),
                count,
            )
        }
    }

    fn fresh_rotation_limit(&self, row: &mut RotationRow) {
        unsafe { rig_fresh_rotation_limit(row) }
    }

    fn rotation_limit_read(&self, record: &RotationRecord, row: &mut RotationRow) {
        unsafe { rig_rotation_limit_read(record, row) }
    }

    fn rotation_limit_write(&self, row: &RotationRow, out: &mut [u8]) -> u32 {
        unsafe { rig_rotation_limit_write(row, out.as_mut_ptr(), out.len()) }
    }

    fn translation_limit_read(&self, record: &TranslationRecord, row: &mut TranslationRow) {
        unsafe { rig_translation_limit_read(record, row) }
    }

    fn translation_limit_write(&self, row: &TranslationRow, out: &mut [u8]) -> u32 {
        unsafe { rig_translation_limit_write(row, out.as_mut_ptr(), out.len()) }
    }
}
