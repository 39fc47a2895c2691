//! What a reading is lent, again and again.

use super::distinct::Hash;
use crate::lent::Lent;
use crate::lent_tables::{Dirts, LentHalves, LentReading, ReadRows};
use crate::skeletons::read::Asked;
use cases::{Rng, Section};
use link::{SkeletonFields, Skeletons, DONE};

/// The fields and the rows that the Rust's reading of a section leaves, if it is done.
pub struct Left(Option<(SkeletonFields, ReadRows)>);

impl Left {
    pub fn of(asked: &Asked) -> Self {
        Left(asked.left().map(|(fields, tables)| (fields, ReadRows::of(tables))))
    }

    pub fn rows(&self) -> Option<&ReadRows> {
        self.0.as_ref().map(|(_, rows)| rows)
    }

    pub fn hash(&self, status: u32) -> Hash {
        let mut hash = Hash::new(status as u64);
        if let Some((fields, rows)) = &self.0 {
            hash.words(fields.iter().map(|&field| field as u64));
            rows.words.iter().for_each(|table| hash.words(table.iter().map(|&word| word as u64)));
            rows.shorts.iter().for_each(|table| hash.words(table.iter().map(|&word| word as u64)));
        }
        hash
    }
}

pub fn section_hash(section: &Section) -> Hash {
    let mut hash = Hash::new(section.root);
    hash.bytes(&section.system);
    hash.bytes(&section.graphics);
    hash
}

/// The halves, the tables and the fields.
pub struct ReadMemory {
    pub halves: LentHalves,
    pub tables: LentReading,
    pub fields: Lent<usize>,
}

impl ReadMemory {
    pub fn new() -> Self {
        let tables = LentReading::dirty(&[0; 8], &mut Rng::new(0));
        ReadMemory { halves: LentHalves::new(), tables, fields: Lent::of(&[]) }
    }

    /// Reads the section whose halves were lent, in dirty tables of these lengths.
    pub fn read(&mut self, library: &dyn Skeletons, root: u64, lengths: &[usize; 8], dirt: &mut Dirts) -> u32 {
        self.tables.again(lengths, dirt);
        self.fields.again(dirt.sizes.part(20, &mut dirt.rng));
        library.read(self.halves.halves(), root, self.tables.tables(), self.fields.array())
    }

    /// Whether a reading of this status left what it must: the halves and all guards as they were, and the rows and fields, or
    /// zeros.
    pub fn holds(&mut self, section: &Section, status: u32, left: &Left) -> bool {
        let left = left.0.as_ref().filter(|_| status == DONE);
        self.fields.holds(left.map_or(&[], |(fields, _)| fields))
            && self.tables.hold(left.map(|(_, rows)| rows))
            && self.halves.are_still([&section.system, &section.graphics])
    }
}
