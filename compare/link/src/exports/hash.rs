//! The hash of names.

use super::{declared::*, Rig};
use crate::Hash;

impl Hash for Rig {
    fn rage_joaat(&self, s: &[u8]) -> u32 {
        unsafe { rig_rage_joaat(s.as_ptr(), s.len()) }
    }
}
