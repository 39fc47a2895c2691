//! Each method of the published `Cursor` in turn, as plain numbers.

use rage_formats::blocks::ydr;

/// What `u8`, `u16`, `i16`, `u32`, `u64`, `f32`, `vec3` and `vec4` give, then behind a skip of `n` bytes `va`, and 0 or 11 by
/// `check`. Floats are their words, and a signed number is its pattern.
pub fn cursor_in_turn(data: &[u8], pos: usize, base: u64, n: usize) -> [u64; 15] {
    let mut c = ydr::cursor_at(data, pos, base);
    let first = [c.u8() as u64, c.u16() as u64, c.i16() as u16 as u64, c.u32() as u64];
    let (long, float, three, four) = (c.u64(), c.f32(), c.vec3(), c.vec4());
    let floats = [float, three.x, three.y, three.z, four.x, four.y, four.z, four.w].map(|f| f.to_bits() as u64);
    c.skip(n);
    let last = [c.va(), if c.check().is_ok() { 0 } else { 11 }];
    let all = [&first[..], &[long], &floats, &last].concat();
    all.try_into().expect("fifteen numbers")
}
