//! Reading and writing of skeletons.

use crate::lent::Lent;
use crate::rigs::{named, thousands, Drawn};
use crate::timing::{timed, Row, Table};
use cases::rigs::{broad, chain, tree, LONGEST_WRITTEN};
use cases::{names, rows, Rng};
use link::{Derive, Halves, ReadTables, Skeletons, WriteTables, WrittenBones, DONE};
use oracle::{read, Answer, Bone, PreparedRig, PreparedSection, Rows, SYSTEM_BASE};
use std::time::Duration;

/// Rigs whose sections can be written: they have no more than 65,535 child entries.
pub const RIGS: [(&str, Drawn, usize); 7] = [
    ("random tree", tree, 100),
    ("chain", chain, 100),
    ("random tree", tree, 1_000),
    ("chain", chain, 1_000),
    ("random tree", tree, 10_000),
    ("longest chain and others", longest, 10_000),
    ("longest chain and others", longest, 65_535),
];

/// The longest chain that can be written, and bones that are nobody's children.
pub fn longest(rng: &mut Rng, n: usize) -> Vec<Bone> {
    broad(rng, n, LONGEST_WRITTEN)
}

/// The pools that a section is read with: the call's name, and how many times the rows that reading wants.
pub const POOLS: [(&str, usize); 2] = [("read, pool half full", 2), ("read, pool full", 1)];

/// Reading, with a pool of twice the rows that it wants and with one of just these; writing, and writing without deriving, against
/// the Rust's placing and writing of derived blocks and against its writing of placed ones. Not so for chains, where the walks of
/// deriving take nearly all of the time.
pub fn rigs(table: &Table, library: &dyn Skeletons, derive: &dyn Derive) {
    few_bones(table, library);
    for (shape, drawn, n) in RIGS {
        let bones = named(drawn, n);
        let input = format!("{shape}, {} bones", thousands(n));
        let row = |call| Row { call, input: &input, units: n, unit: "a bone" };
        let section = PreparedRig::new(&bones).write().0;
        for (call, pool) in POOLS {
            read_both(table, library, &row(call), &section, pool);
        }
        let mut lent = WriteLent::new(&bones, section.len());
        let rust = || {
            let prepared = PreparedRig::new(&bones);
            timed(|| prepared.write())
        };
        table.both(&row("write"), || lent.write(library), rust);
        assert_eq!(lent.out, section, "the two sections of {input}");
        if shape != "chain" {
            let mut derived = PreparedRig::new(&bones).derived();
            let ours = |lent: &mut WriteLent| (lent.write(library), lent.derive(derive));
            table.rest(&row("write, deriving aside"), || ours(&mut lent), || timed(|| derived.write()));
            let placed = derived.placed();
            table.rest(&row("write, against placed blocks"), || ours(&mut lent), || timed(|| placed.write()));
        }
    }
}

/// Reading of few bones, for which what a call costs in itself counts most.
fn few_bones(table: &Table, library: &dyn Skeletons) {
    let section = PreparedRig::new(&named(tree, 10)).write().0;
    for (call, pool) in POOLS {
        read_both(table, library, &Row { call, input: "random tree, 10 bones", units: 10, unit: "a bone" }, &section, pool);
    }
}

/// The row of a reading with a pool of so many times the rows that are wanted.
pub fn read_both(table: &Table, library: &dyn Skeletons, row: &Row, section: &[u8], pool: usize) {
    let mut lent = ReadLent::new(section, pool);
    let rust = || {
        let prepared = PreparedSection::new(section);
        timed(|| prepared.read(SYSTEM_BASE))
    };
    table.both(row, || lent.read(library, section), rust);
}

/// Our tables for reading a section, all but the pool exactly as long as they must be.
pub struct ReadLent {
    words: [Vec<u32>; 5],
    halves: [Vec<u16>; 2],
    pool: Vec<u64>,
}

impl ReadLent {
    /// A pool of so many times the rows that are wanted.
    pub fn new(section: &[u8], times: usize) -> Self {
        let Answer::Read(reading) = read(section, &[], SYSTEM_BASE) else { panic!("a good section") };
        let Rows { buckets, entries, bones, inverse, local, parents, children, pool } = reading.rows;
        let (entries, bones) = (rows::ENTRY * entries, rows::BONE * bones);
        ReadLent {
            words: [bones, buckets, entries, rows::MATRIX * inverse, rows::MATRIX * local].map(|length| vec![1; length]),
            halves: [parents, children].map(|length| vec![1; length]),
            pool: vec![1; rows::POOL * pool * times],
        }
    }

    pub fn tables(&mut self) -> ReadTables<'_> {
        let [bones, buckets, entries, inverse, local] = &mut self.words;
        let [parents, children] = &mut self.halves;
        ReadTables { bones, buckets, entries, inverse, local, parents, children, pool: &mut self.pool }
    }

    pub fn read(&mut self, library: &dyn Skeletons, system: &[u8]) -> Duration {
        let tables = self.tables();
        let (section, mut fields) = (Halves { system, graphics: &[] }, [0; 20]);
        timed(|| assert_eq!(library.read(section, SYSTEM_BASE, tables, &mut fields), DONE))
    }
}

/// Our tables and the buffer for writing bones, exactly as long as they must be.
pub struct WriteLent {
    tables: Lent,
    names: Vec<u8>,
    out: Vec<u8>,
}

impl WriteLent {
    pub fn new(bones: &[Bone], length: usize) -> Self {
        WriteLent { tables: Lent::new(bones), names: names::packed(bones).0, out: vec![1; length] }
    }

    pub fn write(&mut self, library: &dyn Skeletons) -> Duration {
        let Lent { n, bones, buckets, entries, parents, children, pending, inverse, local } = &mut self.tables;
        let tables = WriteTables { buckets, entries, inverse, local, parents, children, pending };
        let names = Halves { system: &self.names, graphics: &[] };
        let (bones, mut count) = (WrittenBones { table: bones, n: *n, names, free: &[0; 4] }, 0);
        timed(|| assert_eq!(library.write(bones, tables, &mut self.out, &mut count), DONE))
    }

    /// The three derivations that writing makes.
    fn derive(&mut self, library: &dyn Derive) -> Duration {
        self.tables.tags(library) + self.tables.indices(library) + self.tables.matrices(library)
    }
}
