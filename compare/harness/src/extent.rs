//! How much of a comparison is run.

#[derive(Clone, Copy, Debug, PartialEq, Eq, PartialOrd, Ord)]
pub enum Extent {
    /// For the self-test.
    Test,
    Short,
    Long,
}

impl Extent {
    /// The number for this extent.
    pub fn of(self, numbers: [u64; 3]) -> u64 {
        numbers[self as usize]
    }
}
