//! Names in two halves: the bytes at a place by the published `Reader::slice`, the name at an address by `Reader::string`.

use crate::refusal::number;
use rage_formats::blocks::{ydr, Reader};

/// Two halves in which names lie.
pub struct NameBytes(Reader);

impl NameBytes {
    pub fn new(system: &[u8], graphics: &[u8]) -> Self {
        NameBytes(ydr::reader(system, graphics))
    }

    /// The bytes at an address; `None` where they do not all lie in its half, or it is in neither.
    pub fn at(&self, address: u64, size: usize) -> Option<&[u8]> {
        self.0.slice(address, size).ok()
    }

    /// The name at an address that is not 0, or a refusal's number.
    pub fn name(&self, address: u64) -> Result<String, u8> {
        self.0.string(address).map(|name| name.expect("an address that is not 0")).map_err(|e| number(&e.to_string()))
    }
}
