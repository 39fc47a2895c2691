//! How many of many items are distinct, by 64-bit hashes of them.

/// A hash of words.
#[derive(Clone, Copy)]
pub struct Hash(u64);

impl Hash {
    pub fn new(start: u64) -> Self {
        Hash(start ^ 0x9E37_79B9_7F4A_7C15)
    }

    fn add(&mut self, word: u64) {
        let wide = (self.0 ^ word) as u128 * 0xD6E8_FEB8_6659_FD93_u128;
        self.0 = (wide as u64 ^ (wide >> 64) as u64).rotate_left(23).wrapping_add(0xA076_1D64_78BD_642F);
    }

    pub fn words(&mut self, words: impl ExactSizeIterator<Item = u64>) {
        self.add(words.len() as u64);
        words.for_each(|word| self.add(word));
    }

    pub fn bytes(&mut self, bytes: &[u8]) {
        self.add(bytes.len() as u64);
        let (words, rest) = bytes.as_chunks();
        words.iter().for_each(|&word| self.add(u64::from_le_bytes(word)));
        rest.iter().for_each(|&byte| self.add(byte as u64));
    }
}

/// Hashes, those in front sorted and each there once.
#[derive(Default)]
pub struct Distinct {
    hashes: Vec<u64>,
    sorted: usize,
}

impl Distinct {
    pub fn add(&mut self, hash: Hash) {
        self.hashes.push(hash.0);
        if self.hashes.len() > 1 << 20 && self.hashes.len() > 2 * self.sorted {
            self.settle();
        }
    }

    fn settle(&mut self) {
        self.hashes.sort_unstable();
        self.hashes.dedup();
        self.sorted = self.hashes.len();
    }

    pub fn join(&mut self, other: Distinct) {
        self.hashes.extend(other.hashes);
        self.settle();
    }

    pub fn count(mut self) -> usize {
        self.settle();
        self.sorted
    }
}
