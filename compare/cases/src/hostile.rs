//! Sections whose entries lie where a pool that is searched by a known hash finds them at the greatest cost. They have no bones and
//! no lists, so that reading is chains alone, and nearly all of it a search of the pool for each entry.

mod addresses;
mod tree;

use crate::records::{entry, skeleton};
use crate::section::Section;
use crate::units;
use oracle::SYSTEM_BASE;

/// The most buckets that a section can count.
const BUCKETS: usize = 65_535;

/// Where entries begin, behind the skeleton and the longest bucket array.
const ENTRIES: u64 = SYSTEM_BASE + 0x10_0000;

/// The rows of the pool that are no entry's: the bucket array's and the skeleton's.
const OTHERS: usize = 2;

/// How entries are led to.
#[derive(Clone, Copy, PartialEq, Eq)]
enum Form {
    /// A bucket for each address asked for. All entries are zero, so that they may overlap.
    Buckets,
    /// One chain.
    Chain,
}

/// A kind of hostile section.
pub struct Hostile {
    pub name: &'static str,
    /// Its entries: for valgrind, in a short comparison, and in a long one and in timing.
    pub entries: [usize; 3],
    form: Form,
    /// The addresses in the order in which they are asked for: so many different ones, for a pool of so many rows.
    addresses: fn(usize, usize) -> Vec<u64>,
}

pub const HOSTILE: [Hostile; 13] = [
    Hostile::new("lowest homes", [100, 2_000, BUCKETS], Form::Buckets, addresses::lowest),
    Hostile::new("lowest homes, one chain", [100, 4_000, 262_144], Form::Chain, addresses::lowest_of_chain),
    Hostile::new("every byte", [100, 2_000, BUCKETS], Form::Buckets, addresses::every_byte),
    Hostile::new("every 2 bytes", [100, 2_000, BUCKETS], Form::Buckets, addresses::every_2_bytes),
    Hostile::new("512 bytes of each 64 KiB", [100, 2_000, BUCKETS], Form::Buckets, addresses::runs_of_512),
    Hostile::new("4,096 bytes of each 4 MiB", [100, 5_000, BUCKETS], Form::Buckets, addresses::runs_of_4096),
    Hostile::new("strides of 512", [100, 2_000, BUCKETS], Form::Chain, addresses::strides_of_512),
    Hostile::new("strides of 4,096", [100, 1_000, 16_384], Form::Chain, addresses::strides_of_4096),
    Hostile::new("a solid block, then the dearest", [100, 2_000, BUCKETS], Form::Buckets, tree::dearest),
    Hostile::new("a solid block, then the dearest, one chain", [100, 2_000, 262_144], Form::Chain, tree::dearest_of_chain),
    Hostile::new("deepest tree", [100, 2_000, BUCKETS], Form::Buckets, tree::deepest),
    Hostile::new("deepest tree asked again", [100, 1_024, 1_024], Form::Buckets, tree::deepest_again),
    Hostile::new("longest path asked again", [254; 3], Form::Buckets, tree::longest_path_again),
];

impl Hostile {
    const fn new(name: &'static str, entries: [usize; 3], form: Form, addresses: fn(usize, usize) -> Vec<u64>) -> Self {
        Hostile { name, entries, form, addresses }
    }

    /// The rows of the pool that so many entries want.
    pub fn rows(entries: usize) -> usize {
        entries + OTHERS
    }

    /// A section of so many entries, made for a pool of so many rows, and how many addresses of entries it asks for.
    pub fn section(&self, entries: usize, rows: usize) -> (Section, usize) {
        let addresses = (self.addresses)(entries, rows);
        let end = addresses.iter().max().expect("an entry") + entry::SIZE as u64;
        let firsts = if self.form == Form::Chain { &addresses[..1] } else { &addresses };
        let buckets = SYSTEM_BASE + skeleton::SIZE as u64;
        let record = units::Skeleton { buckets, bucket_count: firsts.len() as u16, ..units::Skeleton::default() };
        let mut section = Section::written(vec![0; (end - SYSTEM_BASE) as usize]);
        section.put(SYSTEM_BASE, &record.bytes());
        section.put(buckets, &units::pointers(firsts));
        if self.form == Form::Chain {
            for (i, &va) in addresses.iter().enumerate() {
                let next = addresses.get(i + 1).copied().unwrap_or(0);
                section.put(va, &units::entry(i as u32, i as u32, next));
            }
        }
        (section, addresses.len())
    }
}
