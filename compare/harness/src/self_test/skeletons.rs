//! Skeletons by the published code, with a fault of reading or of writing.

use super::{skeleton_read as read, skeleton_write as write};
use crate::skeletons::write::{ours, WriteInput};
use cases::rigs::{broad, LONGEST_WRITTEN};
use cases::rows::{self, Place};
use cases::Rng;
use link::{Halves, ReadTables, SkeletonFields, Skeletons, WriteTables, WrittenBones};

pub struct Faulty(pub Option<Fault>);

#[derive(Clone, Copy, Debug)]
pub enum Fault {
    Read(read::Fault),
    Write(write::Fault),
}

pub fn faults() -> Vec<Fault> {
    read::FAULTS.map(Fault::Read).into_iter().chain(write::FAULTS.map(Fault::Write)).collect()
}

/// Faults of reading that show in what was written.
pub const ROUND_TRIP: [Fault; 3] =
    [Fault::Read(read::Fault::KeptLost), Fault::Read(read::Fault::NameSize), Fault::Read(read::Fault::PoolLeft)];

/// Whether it is noticed that the bones of 65,536 child entries are taken.
pub fn three_is_noticed() -> bool {
    const CHAIN: usize = LONGEST_WRITTEN + 1;
    let bones = rows::placed_bones(&broad(&mut Rng::new(1), CHAIN, CHAIN), &[Place::default(); CHAIN]);
    let (input, section) = WriteInput::exact(bones, CHAIN, Default::default(), [0; 4], 1);
    ours(&Faulty(Some(Fault::Write(write::Fault::ThreeForgotten))), &input) != input.lent(&section)
}

impl Skeletons for Faulty {
    fn read(&self, section: Halves, root: u64, tables: ReadTables, fields: &mut SkeletonFields) -> u32 {
        let fault = if let Some(Fault::Read(fault)) = self.0 { Some(fault) } else { None };
        read::read(fault, section, root, tables, fields)
    }

    fn write(&self, bones: WrittenBones, tables: WriteTables, out: &mut [u8], count: &mut usize) -> u32 {
        let fault = if let Some(Fault::Write(fault)) = self.0 { Some(fault) } else { None };
        write::write(fault, bones, tables, out, count)
    }
}
