//! A cursor with a fault.

use link::Cursor;
use oracle::cursor_in_turn;

/// The published cursor with a fault, or with none.
pub struct Faulty(pub Option<Fault>);

#[derive(Clone, Copy, Debug, PartialEq)]
pub enum Fault {
    /// The overrun is not marked.
    Unmarked,
    /// `skip` past the end marks the overrun.
    SkipMarks,
    /// A vector that runs past the end gives the words that stand.
    WordsThatStand,
    /// A number that runs past the end gives the bytes that stand.
    BytesThatStand,
    /// The address is that of the section's first byte.
    VaOfTheBase,
    /// The numbers are stored one word further on.
    WordFurther,
}

pub const FAULTS: [Fault; 6] =
    [Fault::Unmarked, Fault::SkipMarks, Fault::WordsThatStand, Fault::BytesThatStand, Fault::VaOfTheBase, Fault::WordFurther];

/// The bytes of all reads, and of those in front of the vector of three.
const ALL: usize = 49;
const IN_FRONT: usize = 21;

impl Cursor for Faulty {
    fn in_turn(&self, s: &[u8], pos: usize, base: u64, n: usize, out: &mut [u64]) -> bool {
        if out.len() < 15 {
            return false;
        }
        let mut numbers = cursor_in_turn(s, pos, base, n);
        let three = pos.saturating_add(IN_FRONT);
        match self.0 {
            Some(Fault::Unmarked) => numbers[14] = 0,
            Some(Fault::SkipMarks) if pos.saturating_add(ALL + n) > s.len() => numbers[14] = 11,
            Some(Fault::WordsThatStand) if three < s.len() => {
                let word = |at: usize| s.get(at..at + 4).map_or(0, |b| u32::from_le_bytes([b[0], b[1], b[2], b[3]]) as u64);
                numbers[6..9].copy_from_slice(&[word(three), word(three + 4), word(three + 8)]);
            }
            Some(Fault::BytesThatStand) if pos.checked_add(2) == Some(s.len()) => numbers[1] = s[pos + 1] as u64,
            Some(Fault::VaOfTheBase) => numbers[13] = base,
            _ => {}
        }
        let at = usize::from(self.0 == Some(Fault::WordFurther) && out.len() > 15);
        out[at..at + 15].copy_from_slice(&numbers);
        true
    }
}
