//! The published `Cursor` and `Writer` as the oracle for single little-endian fields.

use rage_formats::blocks::{ydr, Cursor, Pod, Writer};

/// What a cursor at `at` yields, and whether it marks the overrun.
fn taken<'a, V>(data: &'a [u8], at: usize, take: fn(&mut Cursor<'a>) -> V) -> (V, bool) {
    let mut c = ydr::cursor_at(data, at, 0);
    let value = take(&mut c);
    (value, c.check().is_err())
}

/// The field, or 0 where it does not lie wholly in the data.
pub fn u16_at(data: &[u8], at: usize) -> u16 {
    taken(data, at, Cursor::u16).0
}

pub fn u32_at(data: &[u8], at: usize) -> u32 {
    taken(data, at, Cursor::u32).0
}

pub fn u64_at(data: &[u8], at: usize) -> u64 {
    taken(data, at, Cursor::u64).0
}

/// The data after `Pod::write` at `at`; `None` where a cursor of that width would overrun (the published
/// writer would lengthen its buffer there).
fn put<'a, T: Pod>(data: &'a [u8], at: usize, value: T, take: fn(&mut Cursor<'a>) -> T) -> Option<Vec<u8>> {
    let (_, overrun) = taken(data, at, take);
    if overrun {
        return None;
    }
    let mut w = Writer::new(0, 0);
    w.bytes(data);
    w.seek(at as u64);
    value.write(&mut w);
    Some(w.into_inner())
}

pub fn put_u16(data: &[u8], at: usize, value: u16) -> Option<Vec<u8>> {
    put(data, at, value, Cursor::u16)
}

pub fn put_u32(data: &[u8], at: usize, value: u32) -> Option<Vec<u8>> {
    put(data, at, value, Cursor::u32)
}

pub fn put_u64(data: &[u8], at: usize, value: u64) -> Option<Vec<u8>> {
    put(data, at, value, Cursor::u64)
}
