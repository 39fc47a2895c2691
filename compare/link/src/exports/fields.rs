//! The single fields.

use super::{declared::*, truth, Rig};
use crate::Fields;

impl Fields for Rig {
    fn u16_at(&self, s: &[u8], at: usize) -> u16 {
        unsafe { rig_u16_at(s.as_ptr(), s.len(), at) }
    }

    fn u32_at(&self, s: &[u8], at: usize) -> u32 {
        unsafe { rig_u32_at(s.as_ptr(), s.len(), at) }
    }

    fn u64_at(&self, s: &[u8], at: usize) -> u64 {
        unsafe { rig_u64_at(s.as_ptr(), s.len(), at) }
    }

    fn put16(&self, d: &mut [u8], at: usize, v: u16) -> bool {
        truth(unsafe { rig_put16(d.as_mut_ptr(), d.len(), at, v) })
    }

    fn put32(&self, d: &mut [u8], at: usize, v: u32) -> bool {
        truth(unsafe { rig_put32(d.as_mut_ptr(), d.len(), at, v) })
    }

    fn put64(&self, d: &mut [u8], at: usize, v: u64) -> bool {
        truth(unsafe { rig_put64(d.as_mut_ptr(), d.len(), at, v) })
    }
}
