//! Floats that keep every bit.

use std::fmt;

/// A 32-bit float, held as its word.
///
/// What is read is to be written again bit for bit, NaN with payloads among it. An `f32` cannot promise that: on some targets a
/// signalling NaN changes as it is moved, and `==` calls a NaN unlike itself and the two zeros alike. So the word is kept, and two
/// floats are equal where their words are.
///
/// ```
/// use rig::Float;
///
/// assert_eq!(Float::from(1.5).value(), 1.5);
/// assert_ne!(Float::from(0.0), Float::from(-0.0));
/// assert_eq!(Float::from_bits(0x7F80_0001).to_bits(), 0x7F80_0001);
/// ```
#[derive(Clone, Copy, Default, PartialEq, Eq, Hash)]
pub struct Float(u32);

impl Float {
    /// The float of a word.
    pub const fn from_bits(word: u32) -> Float {
        Float(word)
    }

    /// The word.
    pub const fn to_bits(self) -> u32 {
        self.0
    }

    /// The number.
    pub const fn value(self) -> f32 {
        f32::from_bits(self.0)
    }
}

impl From<f32> for Float {
    fn from(value: f32) -> Float {
        Float(value.to_bits())
    }
}

/// The number, or the word where it is NaN.
impl fmt::Debug for Float {
    fn fmt(&self, f: &mut fmt::Formatter) -> fmt::Result {
        if self.value().is_nan() {
            write!(f, "NaN({:08X})", self.0)
        } else {
            fmt::Debug::fmt(&self.value(), f)
        }
    }
}

/// Numbers as floats.
///
/// ```
/// let up = rig::floats([0.0, 0.0, 1.0]);
/// assert_eq!(up[2].value(), 1.0);
/// ```
pub fn floats<const N: usize>(values: [f32; N]) -> [Float; N] {
    values.map(Float::from)
}

/// A matrix: sixteen floats, column 4 in words 3, 7, 11 and 15.
pub type Matrix = [Float; 16];

/// The floats of `N` words from the start of a row.
pub(crate) fn taken<const N: usize>(words: &[u32]) -> [Float; N] {
    std::array::from_fn(|i| Float(words[i]))
}

/// The matrices of a table's words.
pub(crate) fn matrices(words: &[u32]) -> Vec<Matrix> {
    words.chunks_exact(16).map(taken).collect()
}

/// The words of floats.
pub(crate) fn words<const N: usize>(floats: &[Float; N]) -> [u32; N] {
    floats.map(Float::to_bits)
}
