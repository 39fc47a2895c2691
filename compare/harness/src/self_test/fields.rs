//! The single fields with a fault.

use link::Fields;

/// The published fields with one fault.
pub struct Faulty(pub Fault);

#[derive(Clone, Copy, PartialEq)]
pub enum Fault {
    None,
    /// One bit of a 32-bit read, only at position 3 of at least 9 bytes.
    ReadBit,
    /// A put that does not fit stores a byte all the same.
    PutAnyway,
    /// A put stores its field and one byte more.
    PutMore,
}

impl Faulty {
    fn put(&self, d: &mut [u8], after: Option<Vec<u8>>, end: usize) -> bool {
        match &after {
            Some(bytes) => d.copy_from_slice(bytes),
            None if self.0 == Fault::PutAnyway => d.iter_mut().take(1).for_each(|b| *b ^= 1),
            None => {}
        }
        if let (Fault::PutMore, true, Some(next)) = (self.0, after.is_some(), d.get_mut(end)) {
            *next ^= 1;
        }
        after.is_some()
    }
}

impl Fields for Faulty {
    fn u16_at(&self, s: &[u8], at: usize) -> u16 {
        oracle::u16_at(s, at)
    }
    fn u32_at(&self, s: &[u8], at: usize) -> u32 {
        oracle::u32_at(s, at) ^ (self.0 == Fault::ReadBit && at == 3 && s.len() >= 9) as u32
    }
    fn u64_at(&self, s: &[u8], at: usize) -> u64 {
        oracle::u64_at(s, at)
    }
    fn put16(&self, d: &mut [u8], at: usize, v: u16) -> bool {
        self.put(d, oracle::put_u16(d, at, v), at.wrapping_add(2))
    }
    fn put32(&self, d: &mut [u8], at: usize, v: u32) -> bool {
        self.put(d, oracle::put_u32(d, at, v), at.wrapping_add(4))
    }
    fn put64(&self, d: &mut [u8], at: usize, v: u64) -> bool {
        self.put(d, oracle::put_u64(d, at, v), at.wrapping_add(8))
    }
}
