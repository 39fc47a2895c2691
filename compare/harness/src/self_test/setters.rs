//! The setters with a fault.

use link::Setters;
use oracle::{set_column4, set_scale_vector, settle_nan, Matrix};

/// The published setters with a fault, or with none.
pub struct Faulty(pub Option<Fault>);

#[derive(Clone, Copy, Debug, PartialEq)]
pub enum Fault {
    /// The matrix is left as it was.
    NothingStored,
    /// The diagonal's second word is stored at 4.
    WordFour,
    /// Column 4 is stored in row 4.
    RowForColumn,
    /// A NaN outside column 4 does not keep its bits.
    NanSettled,
    /// Word 15 is 1 once the diagonal is set.
    LastWord,
    /// -0 becomes +0.
    SignLost,
}

pub const FAULTS: [Fault; 6] =
    [Fault::NothingStored, Fault::WordFour, Fault::RowForColumn, Fault::NanSettled, Fault::LastWord, Fault::SignLost];

impl Faulty {
    fn left(&self, m: &mut Matrix, mut set: Matrix) {
        match self.0 {
            Some(Fault::NothingStored) => return,
            Some(Fault::NanSettled) => set = settle_nan(&set),
            Some(Fault::SignLost) => set = set.map(|w| if w == 0x8000_0000 { 0 } else { w }),
            _ => {}
        }
        *m = set;
    }
}

impl Setters for Faulty {
    fn set_scale_vector(&self, m: &mut Matrix, s: &[u32; 3]) {
        let mut set = set_scale_vector(m, *s);
        match self.0 {
            Some(Fault::WordFour) => (set[4], set[5]) = (s[1], m[5]),
            Some(Fault::LastWord) => set[15] = 0x3F80_0000,
            _ => {}
        }
        self.left(m, set);
    }

    fn set_column4(&self, m: &mut Matrix, v: &[u32; 4]) {
        let mut set = set_column4(m, *v);
        if self.0 == Some(Fault::RowForColumn) {
            set = *m;
            set[12..].copy_from_slice(v);
        }
        self.left(m, set);
    }
}
