//! The tables that the library is lent, and how long they are.
//!
//! A row of a table is some words: a bone takes 21, a tag entry 3, a matrix 16, an address of the pool 4 of 64 bits, and a pending
//! bone 2.

use crate::ffi;
use crate::section::Section;

/// The words of a row.
pub(crate) const BONE: usize = 21;
pub(crate) const ENTRY: usize = 3;
pub(crate) const MATRIX: usize = 16;
const POOL: usize = 4;
const PENDING: usize = 2;

/// Offsets of the counts that a skeleton's record stores.
const BUCKET_COUNT: u64 = 24;
const BONE_COUNT: u64 = 94;
const CHILD_COUNT: u64 = 96;

/// The status of a table that is too short.
const TOO_SHORT: u32 = 1;

/// The tables of a reading.
pub(crate) struct ReadTables {
    pub bones: Vec<u32>,
    pub buckets: Vec<u32>,
    pub entries: Vec<u32>,
    pub inverse: Vec<u32>,
    pub local: Vec<u32>,
    pub parents: Vec<u16>,
    pub children: Vec<u16>,
    pub pool: Vec<u64>,
}

/// The rows that reading a section can want, all but the tag entries. A stored count is 16 bits of anybody's making; what it counts
/// is also bounded by the bytes that it takes, since a list that runs past the section's end is refused before its rows are stored.
/// So no count makes us lend more than some multiple of the section's own length.
pub(crate) struct Rows {
    pub bones: usize,
    buckets: usize,
    matrices: usize,
    parents: usize,
    children: usize,
}

impl Rows {
    pub fn of(section: &Section) -> Rows {
        let bytes = section.len();
        let count = section.count(BONE_COUNT);
        let parents = count.min(bytes / 2);
        Rows {
            // of a bone's 80 bytes the first 70 must stand
            bones: count.min(bytes / 70),
            buckets: section.count(BUCKET_COUNT).min(bytes / 8),
            matrices: count.min(bytes / 64),
            parents,
            // a child list at the parents' address is given the parents, whatever its count
            children: section.count(CHILD_COUNT).min(bytes / 2).max(parents),
        }
    }
}

impl ReadTables {
    fn new(rows: &Rows, entries: usize) -> ReadTables {
        // pooled are each entry, each bone and its name, the bucket array, the bones block, four lists and the skeleton; reading is
        // fastest in a pool that stays half empty
        let pool = 2 * (entries + 2 * rows.bones + 7);
        ReadTables {
            bones: vec![0; BONE * rows.bones],
            buckets: vec![0; rows.buckets],
            entries: vec![0; ENTRY * entries],
            inverse: vec![0; MATRIX * rows.matrices],
            local: vec![0; MATRIX * rows.matrices],
            parents: vec![0; rows.parents],
            children: vec![0; rows.children],
            pool: vec![0; POOL * pool],
        }
    }
}

/// Makes a call that reads the section, with tables to read it into, and gives its status and the tables as it left them.
///
/// Only the tag entries can be more than the counts say: a chain goes on for as long as it is linked. They are lent as the rows of
/// a well-formed section, one for each bone, and twice as many each time that a table is too short. This ends: each entry read has
/// an address of its own, so that there are never more of them than addresses, and when that many rows are lent no table is too
/// short.
pub(crate) fn lend(section: &Section, mut call: impl FnMut(&mut ReadTables) -> u32) -> (u32, ReadTables) {
    let rows = Rows::of(section);
    let most = section.len();
    let mut entries = rows.bones;
    loop {
        let mut tables = ReadTables::new(&rows, entries);
        let status = call(&mut tables);
        if status != TOO_SHORT || entries == most {
            return (status, tables);
        }
        entries = (2 * entries).clamp(1, most);
    }
}

/// The tables that deriving fills.
pub(crate) struct DerivedTables {
    pub buckets: Vec<u32>,
    pub entries: Vec<u32>,
    pub inverse: Vec<u32>,
    pub local: Vec<u32>,
    pub parents: Vec<u16>,
    pub children: Vec<u16>,
    pub pending: Vec<u32>,
}

/// The buckets of the chains of so many bones: none below two.
pub(crate) fn bucket_count(bones: usize) -> usize {
    if bones < 2 {
        0
    } else {
        ffi::num_hash_buckets(bones)
    }
}

impl DerivedTables {
    /// For so many bones or fewer.
    pub fn new(bones: usize) -> DerivedTables {
        DerivedTables {
            buckets: vec![0; bucket_count(bones)],
            entries: vec![0; ENTRY * bones],
            inverse: vec![0; MATRIX * bones],
            local: vec![0; MATRIX * bones],
            parents: vec![0; bones],
            children: vec![0; 8 * (bones + 1)],
            pending: vec![0; PENDING * 4 * (bones + 1)],
        }
    }
}

#[cfg(test)]
mod tests {
    use super::{lend, Rows, BONE, BONE_COUNT, BUCKET_COUNT, CHILD_COUNT, ENTRY};
    use crate::ffi;
    use crate::section::{Section, SYSTEM_BASE};

    /// A section of so many bytes that claims the most of everything.
    fn boasting(bytes: usize) -> Vec<u8> {
        let mut system = vec![0; bytes];
        for count in [BUCKET_COUNT, BONE_COUNT, CHILD_COUNT] {
            system[count as usize..count as usize + 2].fill(0xFF);
        }
        system
    }

    fn at_start(system: &[u8]) -> Section<'_> {
        Section { system, graphics: &[], root: SYSTEM_BASE }
    }

    #[test]
    fn counts_are_held_to_the_bytes() {
        let rows = Rows::of(&at_start(&boasting(140)));
        assert_eq!((rows.bones, rows.buckets, rows.matrices, rows.parents, rows.children), (2, 17, 2, 70, 70));
        let rows = Rows::of(&at_start(&boasting(10_000_000)));
        assert_eq!(
            (rows.bones, rows.buckets, rows.matrices, rows.parents, rows.children),
            (65_535, 65_535, 65_535, 65_535, 65_535)
        );
        let rows = Rows::of(&Section { root: 0, ..at_start(&boasting(140)) });
        assert_eq!((rows.bones, rows.buckets, rows.matrices, rows.parents, rows.children), (0, 0, 0, 0, 0));
    }

    /// Also with a pool of just half the rows.
    #[test]
    fn a_good_section_is_read_at_the_first_call() {
        let horse = at_start(include_bytes!(concat!(env!("CARGO_MANIFEST_DIR"), "/../../examples/horse.section")));
        let mut calls = 0;
        let (status, _) = lend(&horse, |tables| {
            calls += 1;
            tables.pool.truncate(tables.pool.len() / 2);
            ffi::read(&horse, tables, &mut [0; 20])
        });
        assert_eq!((status, calls), (0, 1));
    }

    #[test]
    fn entries_are_lent_until_they_are_enough() {
        let system = boasting(700);
        let mut lengths = Vec::new();
        let (status, tables) = lend(&at_start(&system), |tables| {
            assert_eq!(tables.bones.len(), 10 * BONE);
            lengths.push(tables.entries.len() / ENTRY);
            u32::from(tables.entries.len() / ENTRY < 300)
        });
        assert_eq!((status, tables.entries.len()), (0, 320 * ENTRY));
        assert_eq!(lengths, [10, 20, 40, 80, 160, 320]);
    }

    #[test]
    fn growing_ends() {
        for bytes in [0, 1, 98, 700] {
            let mut system = boasting(700);
            system.truncate(bytes);
            let (status, tables) = lend(&at_start(&system), |_| 1);
            assert_eq!((status, tables.entries.len()), (1, bytes * ENTRY));
        }
    }
}
