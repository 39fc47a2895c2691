//! Float words: ordinary ones and those at which float arithmetic differs from tame arithmetic.

use crate::rng::Rng;

pub const SPECIAL: [u32; 22] = [
    0x0000_0000, // +0
    0x8000_0000, // -0
    0x3F80_0000, // 1
    0xBF80_0000, // -1
    0x3F00_0000, // 0.5
    0x7F80_0000, // +infinity
    0xFF80_0000, // -infinity
    0x7FC0_0000, // quiet NaN
    0xFFC0_0000, // quiet NaN with the sign bit
    0x7FC0_1234, // quiet NaN with a payload
    0x7F80_0001, // signalling NaN
    0xFFA5_5AA5, // signalling NaN with a payload and the sign bit
    0x0000_0001, // least subnormal
    0x8000_0001, // its negative
    0x007F_FFFF, // greatest subnormal
    0x0080_0000, // least normal
    0x7F7F_FFFF, // greatest finite
    0xFF7F_FFFF, // its negative
    0x1E3C_E508, // 1e-20: its square is 0
    0x2000_0000, // 2^-63: its square is the least normal
    0x5F00_0000, // 2^63: its square is near the greatest
    0x60AD_78EC, // 1e20: its square is infinite
];

/// How often special words are drawn.
#[derive(Clone, Copy)]
pub enum Temper {
    /// Ordinary numbers only.
    Tame,
    /// A special word now and then.
    Mixed,
    /// Special words and arbitrary bit patterns.
    Wild,
}

impl Temper {
    pub fn draw(rng: &mut Rng) -> Temper {
        rng.pick(&[Temper::Tame, Temper::Tame, Temper::Mixed, Temper::Mixed, Temper::Wild])
    }
}

/// A word of the given temper.
pub fn word(rng: &mut Rng, temper: Temper) -> u32 {
    match temper {
        Temper::Tame => ordinary(rng),
        Temper::Mixed if rng.one_in(12) => rng.pick(&SPECIAL),
        Temper::Mixed => ordinary(rng),
        Temper::Wild if rng.one_in(3) => rng.next() as u32,
        Temper::Wild => rng.pick(&SPECIAL),
    }
}

pub fn words<const N: usize>(rng: &mut Rng, temper: Temper) -> [u32; N] {
    std::array::from_fn(|_| word(rng, temper))
}

/// A number between -4 and 4, often a small fraction.
fn ordinary(rng: &mut Rng) -> u32 {
    let n = rng.below(8193) as i32 - 4096;
    let unit = rng.pick(&[1024.0f32, 1000.0, 4096.0]);
    (n as f32 / unit).to_bits()
}
