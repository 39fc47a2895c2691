//! What a call is given: two halves and a root, with access by address.

use oracle::{GRAPHICS_BASE, SYSTEM_BASE};

/// The bytes and the root that a call is given.
#[derive(Clone, Debug, PartialEq, Eq)]
pub struct Section {
    pub system: Vec<u8>,
    pub graphics: Vec<u8>,
    pub root: u64,
}

impl Section {
    /// A written section: system bytes, no graphics, root 50000000 hex.
    pub fn written(system: Vec<u8>) -> Self {
        Section { system, graphics: Vec::new(), root: SYSTEM_BASE }
    }

    /// Becomes the other, in the same memory.
    pub fn copy_from(&mut self, other: &Section) {
        self.system.clone_from(&other.system);
        self.graphics.clone_from(&other.graphics);
        self.root = other.root;
    }

    /// Every truncation of either half, the whole section among them.
    pub fn truncations(&self) -> impl Iterator<Item = Section> + '_ {
        let cut = |half: &[u8], n: usize| half[..n].to_vec();
        let system = (0..=self.system.len()).map(move |n| Section { system: cut(&self.system, n), ..self.clone() });
        system.chain((0..self.graphics.len()).map(move |n| Section { graphics: cut(&self.graphics, n), ..self.clone() }))
    }

    /// The half that an address chooses and the place in it.
    fn locate(&self, va: u64) -> (&[u8], usize) {
        match va & 0xF000_0000 {
            GRAPHICS_BASE => (&self.graphics, (va - GRAPHICS_BASE) as usize),
            _ => (&self.system, va.wrapping_sub(SYSTEM_BASE) as usize),
        }
    }

    /// The `N` bytes at an address; `None` where they do not lie in its half.
    fn bytes<const N: usize>(&self, va: u64) -> Option<[u8; N]> {
        let (data, at) = self.locate(va);
        data.get(at..at.checked_add(N)?)?.try_into().ok()
    }

    pub fn u8(&self, va: u64) -> Option<u8> {
        self.bytes(va).map(u8::from_le_bytes)
    }

    pub fn u16(&self, va: u64) -> Option<u16> {
        self.bytes(va).map(u16::from_le_bytes)
    }

    pub fn u32(&self, va: u64) -> Option<u32> {
        self.bytes(va).map(u32::from_le_bytes)
    }

    pub fn u64(&self, va: u64) -> Option<u64> {
        self.bytes(va).map(u64::from_le_bytes)
    }

    /// Stores bytes at an address; nothing where they do not lie in its half.
    pub fn put(&mut self, va: u64, bytes: &[u8]) {
        let at = self.locate(va).1;
        let half = if va & 0xF000_0000 == GRAPHICS_BASE { &mut self.graphics } else { &mut self.system };
        if let Some(place) = at.checked_add(bytes.len()).and_then(|end| half.get_mut(at..end)) {
            place.copy_from_slice(bytes);
        }
    }

    pub fn put_u16(&mut self, va: u64, v: u16) {
        self.put(va, &v.to_le_bytes());
    }

    pub fn put_u32(&mut self, va: u64, v: u32) {
        self.put(va, &v.to_le_bytes());
    }

    pub fn put_u64(&mut self, va: u64, v: u64) {
        self.put(va, &v.to_le_bytes());
    }

    /// A field of the skeleton record.
    pub fn pointer(&self, field: usize) -> u64 {
        self.u64(self.root.wrapping_add(field as u64)).unwrap_or(0)
    }

    pub fn count(&self, field: usize) -> u16 {
        self.u16(self.root.wrapping_add(field as u64)).unwrap_or(0)
    }

    pub fn set_pointer(&mut self, field: usize, v: u64) {
        self.put_u64(self.root.wrapping_add(field as u64), v);
    }

    pub fn set_count(&mut self, field: usize, v: u16) {
        self.put_u16(self.root.wrapping_add(field as u64), v);
    }
}
