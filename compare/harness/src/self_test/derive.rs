//! Deriving and the hash by the published code, with a fault.

use crate::model;
use cases::rows;
use link::{Derive, Hash, DONE};
use oracle::{build_bone_tags, build_indices, build_transformations, num_hash_buckets, settle_nan, Bone};

pub struct Faulty(pub Option<Fault>);

#[derive(Clone, Copy, Debug, PartialEq)]
pub enum Fault {
    /// One step of the ladder comes one bone late: 22,571 bones have 22,571 buckets.
    LadderLate,
    /// An entry holds its bone's index.
    IndexForPosition,
    /// The buckets are one too few.
    BucketCount,
    /// A chain loses its last entry.
    LinkLost,
    /// A word behind the entries.
    WordBehind,
    /// A pending list cut at 4 * n.
    PendingCut,
    /// The working table is left as it was.
    PendingLeft,
    /// The child entries are counted as 8.
    MadeUpCount,
    /// Parents without their sign.
    ParentSign,
    /// +0 for -0.
    MinusZero,
    /// A NaN keeps its sign.
    NanSign,
    /// Column 4 of the inverse matrix ends in 1.
    Column4,
    /// 65,536 bones are taken.
    TwoForgotten,
    /// A table one word short is taken.
    OneShort,
    /// A refusal leaves the tables as they were.
    RefusalDirty,
    /// A zero byte is skipped.
    HashByte,
}
use Fault::*;

/// The faults of deriving.
pub const FAULTS: [Fault; 15] = [
    LadderLate,
    IndexForPosition,
    BucketCount,
    LinkLost,
    WordBehind,
    PendingCut,
    PendingLeft,
    MadeUpCount,
    ParentSign,
    MinusZero,
    NanSign,
    Column4,
    TwoForgotten,
    OneShort,
    RefusalDirty,
];

impl Faulty {
    fn is(&self, fault: Fault) -> bool {
        self.0 == Some(fault)
    }

    /// 2 and 1; the bones where there is neither.
    fn taken(&self, table: &[u32], n: usize, sizes: &[(usize, usize)]) -> Result<Vec<Bone>, u32> {
        let most = if self.is(TwoForgotten) { 65_536 } else { 65_535 };
        let short = |&(length, size): &(usize, usize)| length + self.is(OneShort) as usize >= size;
        match n {
            _ if n > most => Err(2),
            _ if table.len() < rows::BONE * n || !sizes.iter().all(short) => Err(1),
            _ => Ok(table.chunks_exact(rows::BONE).take(n).map(rows::bone).collect()),
        }
    }

    /// The rows and zeros behind them.
    fn lay<T: Copy + Default>(&self, table: &mut [T], rows: &[T]) {
        let rows = &rows[..rows.len().min(table.len())];
        table[..rows.len()].copy_from_slice(rows);
        table[rows.len()..].fill(T::default());
    }

    fn clear<T: Default + Clone>(&self, table: &mut [T]) {
        if !self.is(RefusalDirty) {
            table.fill(T::default());
        }
    }
}

impl Derive for Faulty {
    fn num_hash_buckets(&self, n: usize) -> usize {
        num_hash_buckets(n - (self.is(LadderLate) && n == 22_571) as usize)
    }

    fn build_bone_tags(&self, bones: &[u32], n: usize, buckets: &mut [u32], entries: &mut [u32], count: &mut usize) -> u32 {
        let (b, e) = if n < 2 { (0, 0) } else { (num_hash_buckets(n), rows::ENTRY.saturating_mul(n)) };
        let bones = match self.taken(bones, n, &[(buckets.len(), b), (entries.len(), e)]) {
            Ok(bones) => bones,
            Err(refusal) => {
                (self.clear(buckets), self.clear(entries), *count = 0);
                return refusal;
            }
        };
        let mut chains = build_bone_tags(&bones);
        *count = chains.len().saturating_sub(self.is(BucketCount) as usize);
        let (heads, mut list) = rows::chains(&chains, n);
        if self.is(LinkLost) {
            chains.iter_mut().for_each(|c| c.truncate(2));
            list = rows::chains(&chains, n).1;
        }
        for (row, bone) in list.chunks_exact_mut(rows::ENTRY).zip(&bones).filter(|_| self.is(IndexForPosition)) {
            row[1] = bone.index as u16 as u32;
        }
        self.lay(buckets, &heads);
        self.lay(entries, &list);
        entries.get_mut(list.len()..).into_iter().flatten().take(self.is(WordBehind) as usize).for_each(|w| *w = 1);
        DONE
    }

    fn build_indices(
        &self,
        bones: &[u32],
        n: usize,
        parents: &mut [u16],
        children: &mut [u16],
        pending: &mut [u32],
        count: &mut usize,
    ) -> u32 {
        if !self.is(PendingLeft) {
            pending.fill(0);
        }
        let words = n.saturating_add(1).saturating_mul(8);
        let sizes = [(parents.len(), n), (children.len(), words), (pending.len(), words)];
        let bones = match self.taken(bones, n, &sizes) {
            Ok(bones) => bones,
            Err(refusal) => {
                (self.clear(parents), self.clear(children), *count = 0);
                return refusal;
            }
        };
        let (mut listed, mut list) = build_indices(&bones);
        if self.is(PendingCut) {
            list = model::children(&bones, 4 * n);
        }
        listed.iter_mut().filter(|_| self.is(ParentSign)).for_each(|p| *p &= i16::MAX);
        *count = if self.is(MadeUpCount) { 8 } else { list.len() };
        self.lay(parents, &listed.iter().map(|&v| v as u16).collect::<Vec<_>>());
        self.lay(children, &list.iter().map(|&v| v as u16).collect::<Vec<_>>());
        DONE
    }

    fn build_transformations(&self, bones: &[u32], n: usize, inverse: &mut [u32], local: &mut [u32]) -> u32 {
        let words = rows::MATRIX.saturating_mul(n);
        let bones = match self.taken(bones, n, &[(inverse.len(), words), (local.len(), words)]) {
            Ok(bones) => bones,
            Err(refusal) => {
                (self.clear(inverse), self.clear(local));
                return refusal;
            }
        };
        let (locals, mut inverses) = build_transformations(&bones);
        inverses.iter_mut().filter(|_| self.is(Column4)).for_each(|m| m[15] = 0x3F80_0000);
        let settled = |m: &[u32; 16]| match self.0 {
            Some(NanSign) => *m,
            Some(MinusZero) => settle_nan(m).map(|w| if w == 0x8000_0000 { 0 } else { w }),
            _ => settle_nan(m),
        };
        self.lay(inverse, &inverses.iter().flat_map(settled).collect::<Vec<_>>());
        self.lay(local, &locals.iter().flat_map(settled).collect::<Vec<_>>());
        DONE
    }
}

impl Hash for Faulty {
    fn rage_joaat(&self, s: &[u8]) -> u32 {
        let bytes: Vec<u8> = s.iter().copied().filter(|&b| !self.is(HashByte) || b != 0).collect();
        model::joaat(&bytes)
    }
}
