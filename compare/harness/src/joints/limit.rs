//! One limit: its record read as a row, and its row written as a record.

use crate::difference::{hex, Input};
use crate::lent::Lent;
use crate::smaller::smaller_bytes;
use cases::records::joints as j;
use cases::{rows, Rng};
use link::{Joints, DONE};
use oracle::{rotation_limit_read, rotation_limit_write, translation_limit_read, translation_limit_write};

/// Which of the two limits.
#[derive(Clone, Copy, Debug, PartialEq, Eq)]
pub enum Kind {
    Rotation,
    Translation,
}
use Kind::*;

impl Kind {
    pub const BOTH: [Kind; 2] = [Rotation, Translation];

    /// The bytes of a record.
    pub fn bytes(self) -> usize {
        match self {
            Rotation => j::ROTATION_LIMIT,
            Translation => j::TRANSLATION_LIMIT,
        }
    }

    /// The words of a row.
    pub fn words(self) -> usize {
        match self {
            Rotation => rows::ROTATION,
            Translation => rows::TRANSLATION,
        }
    }

    /// The row of a record, by the published reading.
    pub fn row(self, record: &[u8]) -> Vec<u32> {
        match self {
            Rotation => rows::rotation(&rotation_limit_read(record)).to_vec(),
            Translation => rows::translation(&translation_limit_read(record)).to_vec(),
        }
    }

    /// The record of a row, by the published writing; 35 where a rotation limit's has no room for the id.
    pub fn record(self, row: &[u32]) -> Result<Vec<u8>, u32> {
        match self {
            Rotation => rows::rotation_limit(row).map(|l| rotation_limit_write(&l)).ok_or(35),
            Translation => Ok(translation_limit_write(&rows::translation_limit(row))),
        }
    }
}

/// A record to be read.
#[derive(Clone)]
pub struct RecordInput {
    pub kind: Kind,
    pub record: Vec<u8>,
    /// The seed of what the row, or the buffer, holds at entry.
    pub dirt: u64,
}

impl Input for RecordInput {
    fn smaller(&self) -> impl Iterator<Item = Self> {
        let as_long = smaller_bytes(&self.record).filter(|record| record.len() == self.record.len());
        as_long.map(|record| RecordInput { record, ..*self })
    }

    fn text(&self) -> String {
        let RecordInput { kind, record, dirt } = self;
        format!("limit {kind:?}\nrecord {}\ndirt {dirt}\n", hex(record))
    }
}

/// A row to be written, and the buffer's length.
#[derive(Clone)]
pub struct RowInput {
    pub kind: Kind,
    pub row: Vec<u32>,
    pub out: usize,
    /// The seed of what the buffer holds at entry.
    pub dirt: u64,
}

impl RowInput {
    /// What the buffer holds at entry.
    fn dirty(&self) -> Vec<u8> {
        Rng::new(self.dirt).bytes(self.out)
    }
}

impl Input for RowInput {
    fn smaller(&self) -> impl Iterator<Item = Self> {
        let lowered = (0..self.row.len()).filter(|&at| self.row[at] != 0).flat_map(|at| [(at, 0), (at, self.row[at] / 2)]);
        let rows = lowered.map(|(at, lower)| {
            let mut row = self.row.clone();
            row[at] = lower;
            RowInput { row, ..*self }
        });
        let lengths = [self.out / 2, self.kind.bytes(), self.out.saturating_sub(1)].into_iter().filter(|&out| out < self.out);
        lengths.map(|out| RowInput { out, ..self.clone() }).chain(rows)
    }

    fn text(&self) -> String {
        let RowInput { kind, row, out, dirt } = self;
        let words: String = row.iter().map(|w| format!(" {w:x}")).collect();
        format!("limit {kind:?}\nrow{words}\nout {out} bytes\ndirt {dirt}\n")
    }
}

/// The row after the call, dirty at entry; whether the record and the guards are as they were.
pub fn read(library: &dyn Joints, i: &RecordInput) -> (Vec<u32>, bool) {
    let (mut record, mut intact) = (Lent::of(&i.record), true);
    let mut row = Lent::<u32>::dirty(i.kind.words(), &mut Rng::new(i.dirt));
    match i.kind {
        Rotation => library.rotation_limit_read(record.array(), row.array()),
        Translation => library.translation_limit_read(record.array(), row.array()),
    }
    record.kept(&i.record, &mut intact);
    (row.back(&mut intact), intact)
}

pub fn rust_read(i: &RecordInput) -> (Vec<u32>, bool) {
    (i.kind.row(&i.record), true)
}

/// What came back, and every byte lent afterwards.
#[derive(Debug, PartialEq, Eq)]
pub struct WriteAnswer {
    pub status: u32,
    pub out: Vec<u8>,
    /// The row and the guards are as they were.
    intact: bool,
}

/// Makes the call on a dirty buffer between guards.
pub fn write(library: &dyn Joints, i: &RowInput) -> WriteAnswer {
    let (mut row, mut out, mut intact) = (Lent::of(&i.row), Lent::of(&i.dirty()), true);
    let status = match i.kind {
        Rotation => library.rotation_limit_write(row.array(), out.slice()),
        Translation => library.translation_limit_write(row.array(), out.slice()),
    };
    row.kept(&i.row, &mut intact);
    WriteAnswer { status, out: out.back(&mut intact), intact }
}

/// The published record at the front of the buffer, which is else as it was: 35, then 5.
pub fn rust_write(i: &RowInput) -> WriteAnswer {
    let mut out = i.dirty();
    let status = match i.kind.record(&i.row) {
        Err(number) => number,
        Ok(record) if record.len() > out.len() => 5,
        Ok(record) => {
            out[..record.len()].copy_from_slice(&record);
            DONE
        }
    };
    WriteAnswer { status, out, intact: true }
}

/// The record read, and its row written.
pub fn there_and_back(library: &dyn Joints, i: &RecordInput) -> WriteAnswer {
    let (row, read_intact) = read(library, i);
    let written = write(library, &RowInput { kind: i.kind, row, out: i.record.len(), dirt: i.dirt });
    WriteAnswer { intact: read_intact && written.intact, ..written }
}

/// The same bytes, as the published reading and writing have them.
pub fn rust_there_and_back(i: &RecordInput) -> WriteAnswer {
    let out = i.kind.record(&i.kind.row(&i.record)).expect("the id of a record");
    assert_eq!(out, i.record, "the published reading keeps every slot");
    WriteAnswer { status: DONE, out, intact: true }
}
