//! The chains by which the game finds a bone.

use crate::tables::ENTRY;
use std::iter;

/// An entry of a chain.
#[derive(Clone, Copy, Debug, PartialEq, Eq)]
pub struct TagEntry {
    /// The tag, in all its 32 bits.
    pub tag: u32,
    /// The position of the bone in the list of bones.
    pub position: u32,
    /// 0, or one more than the row of the next entry.
    next: u32,
}

/// The chains: a hash table of bone tags. A bone's entry stands in the chain of the bucket that is its tag modulo the number of
/// buckets.
///
/// Chains are kept as they are linked, since those of a broken section may share entries and may run in a circle.
#[derive(Clone, Debug, Default)]
pub struct Chains {
    /// Of each bucket 0, or one more than the row of the first entry.
    heads: Vec<u32>,
    entries: Vec<TagEntry>,
}

impl Chains {
    /// The chains of bucket words and of a table of entries, zero behind its rows.
    pub(crate) fn of_tables(buckets: &[u32], entries: &[u32]) -> Chains {
        let heads = buckets.to_vec();
        let mut entries: Vec<TagEntry> =
            entries.chunks_exact(ENTRY).map(|row| TagEntry { tag: row[0], position: row[1], next: row[2] }).collect();
        // every entry is linked to, so that the last one is behind the greatest link
        let last = heads.iter().copied().chain(entries.iter().map(|e| e.next)).max();
        entries.truncate(last.unwrap_or(0) as usize);
        Chains { heads, entries }
    }

    /// The number of buckets, each with a chain that may be empty.
    pub fn len(&self) -> usize {
        self.heads.len()
    }

    /// Whether there are no buckets.
    pub fn is_empty(&self) -> bool {
        self.heads.is_empty()
    }

    /// Every entry once, in the order of storing.
    pub fn entries(&self) -> &[TagEntry] {
        &self.entries
    }

    /// The chain of a bucket, empty where there is no such bucket. One that runs in a circle is given up to as many entries as there
    /// are in all.
    pub fn chain(&self, bucket: usize) -> impl Iterator<Item = TagEntry> + '_ {
        let head = self.heads.get(bucket).and_then(|&link| self.entry(link));
        iter::successors(head, |entry| self.entry(entry.next)).take(self.entries.len())
    }

    /// The chains in the order of their buckets.
    pub fn iter(&self) -> impl Iterator<Item = impl Iterator<Item = TagEntry> + '_> + '_ {
        (0..self.len()).map(|bucket| self.chain(bucket))
    }

    fn entry(&self, link: u32) -> Option<TagEntry> {
        let row = link.checked_sub(1)?;
        self.entries.get(row as usize).copied()
    }
}
