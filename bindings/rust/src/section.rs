//! A section as it lies in memory: its two halves and the address of the record in question.

/// The address of the first byte of the system half. What this crate writes stands there, and its root is this address.
pub const SYSTEM_BASE: u64 = 0x5000_0000;

/// The address of the first byte of the graphics half.
pub const GRAPHICS_BASE: u64 = 0x6000_0000;

#[derive(Clone, Copy)]
pub(crate) struct Section<'a> {
    pub system: &'a [u8],
    pub graphics: &'a [u8],
    pub root: u64,
}

impl<'a> Section<'a> {
    /// The bytes of both halves, which is also how many addresses there are.
    pub fn len(&self) -> usize {
        self.system.len() + self.graphics.len()
    }

    /// So many bytes from an address on, if they lie in one half.
    pub fn part(&self, address: u64, size: usize) -> Option<&'a [u8]> {
        let (half, base) = match address >> 28 {
            5 => (self.system, SYSTEM_BASE),
            6 => (self.graphics, GRAPHICS_BASE),
            _ => return None,
        };
        let start = usize::try_from(address - base).ok()?;
        half.get(start..start.checked_add(size)?)
    }

    /// The 16-bit count at an offset of the record. 0 where it does not stand: the library refuses such a record before it stores a
    /// row.
    pub fn count(&self, offset: u64) -> usize {
        let field = self.root.checked_add(offset).and_then(|at| self.part(at, 2));
        field.map_or(0, |bytes| usize::from(u16::from_le_bytes([bytes[0], bytes[1]])))
    }
}

#[cfg(test)]
mod tests {
    use super::{Section, GRAPHICS_BASE, SYSTEM_BASE};

    const SECTION: Section = Section { system: &[1, 2, 3, 4], graphics: &[5, 6], root: SYSTEM_BASE + 1 };

    #[test]
    fn parts() {
        assert_eq!(SECTION.part(SYSTEM_BASE + 1, 3), Some(&[2, 3, 4][..]));
        assert_eq!(SECTION.part(SYSTEM_BASE + 4, 0), Some(&[][..]));
        assert_eq!(SECTION.part(GRAPHICS_BASE, 2), Some(&[5, 6][..]));
        for (address, size) in [(SYSTEM_BASE + 1, 4), (SYSTEM_BASE + 1, usize::MAX), (0, 0), (0x7000_0000, 0), (u64::MAX, 0)] {
            assert_eq!(SECTION.part(address, size), None);
        }
        assert_eq!(SECTION.part(SYSTEM_BASE + (1 << 32), 1), None);
    }

    #[test]
    fn counts() {
        assert_eq!(SECTION.count(1), 0x0403);
        assert_eq!(SECTION.count(2), 0);
        assert_eq!(Section { root: u64::MAX, ..SECTION }.count(94), 0);
    }
}
