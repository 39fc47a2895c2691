//! Which single limits are compared.

use super::limit::{self, Kind, RecordInput, RowInput};
use super::runs::Runs;
use crate::difference::{compare, Difference};
use crate::tally::{status, Tally};
use cases::limits::{rotation_row, translation_row, IDS};
use cases::{rows, Rng};
use oracle::{fresh_rotation_limit, rotation_limit_write};

/// Words that are set alone in a record or a row: the lowest bit, four different bytes, the lowest bit of the upper half, all bits.
const ALONE: [u32; 4] = [1, 0x0403_0201, 0x1_0000, u32::MAX];

impl Runs<'_> {
    /// Reads a record, and writes what was read.
    fn record(&self, tally: &mut Tally, kind: Kind, record: Vec<u8>) -> Result<(), Difference> {
        let input = RecordInput { kind, record, dirt: self.seed };
        compare(&self.place("limit_read"), &input, |i| limit::read(self.library, i), limit::rust_read)?;
        tally.count(names(kind).0, "done");
        let both = |i: &RecordInput| limit::there_and_back(self.library, i);
        let answer = compare(&self.place("limit_read_and_written"), &input, both, limit::rust_there_and_back)?;
        tally.count(names(kind).2, status(answer.status));
        Ok(())
    }

    fn row(&self, tally: &mut Tally, kind: Kind, row: Vec<u32>, out: usize) -> Result<(), Difference> {
        let input = RowInput { kind, row, out, dirt: self.seed };
        let answer = compare(&self.place("limit_write"), &input, |i| limit::write(self.library, i), limit::rust_write)?;
        tally.count(names(kind).1, status(answer.status));
        Ok(())
    }

    /// Records of zeros and of all bits, records and rows of one word alone, ids at the bounds in buffers of each length up to some
    /// bytes more than a record, and the fresh limit.
    pub(super) fn limits(&self, tally: &mut Tally) -> Result<(), Difference> {
        for kind in Kind::BOTH {
            for byte in [0, 0xFF] {
                self.record(tally, kind, vec![byte; kind.bytes()])?;
            }
            for word in ALONE {
                for slot in 0..kind.bytes() / 4 {
                    let mut slots = vec![0; kind.bytes() / 4];
                    slots[slot] = word;
                    self.record(tally, kind, slots.into_iter().flat_map(u32::to_le_bytes).collect())?;
                }
                for at in 0..kind.words() {
                    let mut row = vec![0; kind.words()];
                    row[at] = word;
                    self.row(tally, kind, row, kind.bytes())?;
                }
            }
            for id in IDS {
                for out in 0..=kind.bytes() + 3 {
                    let mut row = drawn_row(&mut Rng::new(self.seed), kind);
                    row[0] = id;
                    self.row(tally, kind, row, out)?;
                }
            }
        }
        let fresh = fresh_rotation_limit();
        self.record(tally, Kind::Rotation, rotation_limit_write(&fresh))?;
        self.row(tally, Kind::Rotation, rows::rotation(&fresh).to_vec(), Kind::Rotation.bytes())
    }

    /// A drawn record and a drawn row of each kind.
    pub(super) fn drawn_limits(&self, tally: &mut Tally) -> Result<(), Difference> {
        let mut rng = Rng::new(self.seed);
        for kind in Kind::BOTH {
            self.record(tally, kind, rng.bytes(kind.bytes()))?;
            let out = match rng.below(8) {
                0 => kind.bytes() - 1,
                1 => rng.below(kind.bytes()),
                2 => kind.bytes() + rng.below(100),
                _ => kind.bytes(),
            };
            self.row(tally, kind, drawn_row(&mut rng, kind), out)?;
        }
        Ok(())
    }
}

fn drawn_row(rng: &mut Rng, kind: Kind) -> Vec<u32> {
    match kind {
        Kind::Rotation => rotation_row(rng).to_vec(),
        Kind::Translation => translation_row(rng).to_vec(),
    }
}

/// Reading, writing, and the one behind the other, as they are counted.
fn names(kind: Kind) -> (&'static str, &'static str, &'static str) {
    match kind {
        Kind::Rotation => ("rotation limit read", "rotation limit write", "rotation limit read and written"),
        Kind::Translation => ("translation limit read", "translation limit write", "translation limit read and written"),
    }
}
