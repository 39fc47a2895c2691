//! Lookup of a tag, search of a name and the check.

use crate::{Halves, ReadTables, WriteTables};

/// Lookup, name search and check of the skeleton at a root. A call gives its status, `NONE` too where nothing is found; the
/// position is 0 unless one is found, the count of bones 0 unless the section is accepted.
pub trait Checks: Sync {
    fn lookup(&self, section: Halves, root: u64, tag: u16, position: &mut usize) -> u32;
    fn search(&self, section: Halves, root: u64, key: u32, tables: ReadTables, position: &mut usize) -> u32;
    fn check(&self, section: Halves, root: u64, tables: ReadTables, derived: WriteTables, count: &mut usize) -> u32;
}
