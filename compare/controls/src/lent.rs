//! Reading, check and writing in tables of so many rows: 1 where the published functions use more, by docs/FORMAT.md's text.

use crate::term::Answer;
use cases::{tables, Section};
use oracle::{check_reading, names_fit, read_rows, write, Answer as Read, Bone, Reading, Verdict, Written};

/// The program's tables for deriving.
pub const PROGRAM_DERIVED: [usize; 7] = [8_192, 4_096, 800, 800, 800, 8_192, 4 * 801];

/// What is read, `None` for root 0.
pub type ReadAnswer = Result<Option<Box<Reading>>, u8>;

fn short<const N: usize>(lent: [usize; N], wanted: [usize; N]) -> bool {
    lent.iter().zip(wanted).any(|(&rows, wanted)| rows < wanted)
}

/// Whether tables for deriving have the rows that `n` bones want.
pub fn derives(lent: [usize; 7], n: usize) -> bool {
    !short(lent, tables::derived(n))
}

pub fn read(s: &Section, lent: [usize; 8]) -> ReadAnswer {
    match read_rows(&s.system, &s.graphics, s.root) {
        (Read::None, _) => Ok(None),
        (_, rows) if short(lent, tables::used(&rows)) => Err(1),
        (Read::Refused(number), _) => Err(number),
        (Read::Read(reading), _) => Ok(Some(reading)),
    }
}

pub fn check(s: &Section, lent: [usize; 8], derived: [usize; 7]) -> Answer {
    let Some(reading) = read(s, lent)? else { return Ok(None) };
    if !derives(derived, reading.bones.as_ref().map_or(0, Vec::len)) {
        return Err(1);
    }
    match check_reading(&reading) {
        Verdict::Accepted(n) => Ok(Some(n)),
        Verdict::Refused(number) => Err(number),
        Verdict::None => unreachable!("a reading has a verdict"),
    }
}

/// The refusal of a writing into `size` bytes: 2, 4, 1, 3, 5; none where it is taken. A lost name lies outside the lent bytes.
pub fn write_refusal(bones: &[Bone], lost_name: bool, derived: [usize; 7], size: usize) -> Option<u8> {
    if bones.len() > 65_535 {
        return Some(2);
    }
    if lost_name || !names_fit(bones) {
        return Some(4);
    }
    if !derives(derived, bones.len()) {
        return Some(1);
    }
    match write(bones, [0; 4]) {
        Written::Refused(number) => Some(number),
        Written::Section(bytes) => (bytes.len() > size).then_some(5),
    }
}
