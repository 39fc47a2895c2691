//! The methods of a cursor.

use super::{declared::*, truth, Rig};
use crate::Cursor;

impl Cursor for Rig {
    fn in_turn(&self, s: &[u8], pos: usize, base: u64, n: usize, out: &mut [u64]) -> bool {
        truth(unsafe { rig_cursor(s.as_ptr(), s.len(), pos, base, n, out.as_mut_ptr(), out.len()) })
    }
}
