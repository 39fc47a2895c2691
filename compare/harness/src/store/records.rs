//! Stored limits, one record at a time.

use super::case::{words, Operation, Run, Stored};
use super::limits::BUFFER;
use crate::joints::limit::{rust_write, Kind, RowInput};
use cases::limits::{rotation_row, translation_row};
use cases::{rows, Rng};
use link::DONE;
use oracle::{fresh_rotation_limit, rotation_limit_write};

/// The seeds of drawn records, and of drawn rows.
const DRAWN: std::ops::Range<u32> = 101..107;

/// The ids of rows that are written, and by how much what is lent of `replay`'s buffer is longer than the record; at the ends none
/// of the buffer is lent, and all of it.
const WRITES: [(u32, isize); 12] = [
    (0, 0),
    (65_535, 0),
    (65_536, 0),
    (u32::MAX, 0),
    (65_535, -1),
    (65_536, -1),
    (65_535, 1),
    (65_536, 1),
    (65_535, isize::MIN),
    (65_536, isize::MIN),
    (65_535, isize::MAX),
    (65_536, isize::MAX),
];

pub fn cases() -> Vec<Stored> {
    Kind::BOTH.into_iter().flat_map(|kind| [reads(kind), writes(kind)].concat()).collect()
}

/// Zeros, all bits, the fresh limit of its kind, and drawn records.
fn reads(kind: Kind) -> Vec<Stored> {
    let operation = if kind == Kind::Rotation { Operation::RotationRead } else { Operation::TranslationRead };
    let mut by_hand = vec![vec![0; kind.bytes()], vec![0xFF; kind.bytes()]];
    if kind == Kind::Rotation {
        by_hand.push(rotation_limit_write(&fresh_rotation_limit()));
    }
    let drawn = DRAWN.map(|seed| (seed, Rng::new(seed as u64).bytes(kind.bytes())));
    let records = (1..).zip(by_hand).chain(drawn);
    let stored = |(number, record): (u32, Vec<u8>)| {
        let parts = vec![record.clone(), words(&kind.row(&record))];
        Stored { number, runs: vec![Run::longer(operation, DONE)], call: [0, 0], parts }
    };
    records.map(stored).collect()
}

/// Ids and lengths at the bounds, the fresh limit, and drawn rows.
fn writes(kind: Kind) -> Vec<Stored> {
    let drawn = |seed: u32| match kind {
        Kind::Rotation => rotation_row(&mut Rng::new(seed as u64)).to_vec(),
        Kind::Translation => translation_row(&mut Rng::new(seed as u64)).to_vec(),
    };
    let at_bounds = (1..).zip(WRITES).map(|(number, (id, more))| {
        let mut row = drawn(number);
        row[0] = id;
        written(kind, number, row, kind.bytes().saturating_add_signed(more).min(BUFFER))
    });
    let mut out: Vec<Stored> = at_bounds.collect();
    if kind == Kind::Rotation {
        out.push(written(kind, 13, rows::rotation(&fresh_rotation_limit()).to_vec(), kind.bytes()));
    }
    out.extend(DRAWN.map(|seed| written(kind, seed, drawn(seed), kind.bytes())));
    out
}

/// A row written into a buffer of so many bytes, or refused.
fn written(kind: Kind, number: u32, row: Vec<u32>, out: usize) -> Stored {
    let operation = if kind == Kind::Rotation { Operation::RotationWrite } else { Operation::TranslationWrite };
    let written = rust_write(&RowInput { kind, row: row.clone(), out, dirt: 0 });
    let record = if written.status == DONE { written.out[..kind.bytes()].to_vec() } else { Vec::new() };
    let parts = vec![words(&row), record];
    Stored { number, runs: vec![Run::longer(operation, written.status)], call: [out as u64, 0], parts }
}
