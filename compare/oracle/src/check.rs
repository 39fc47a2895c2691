//! The skeleton check of docs/FORMAT.md, put together from the published reading and derivations.

use crate::bone::{Bone, Matrix};
use crate::derive::{build_bone_tags, build_indices, build_transformations, settle_nan, Chains};
use crate::read::{read, Answer, Entry, Reading};

/// What the check answers.
#[derive(Clone, Copy, Debug, PartialEq, Eq)]
pub enum Verdict {
    /// The root is 0: no acceptance.
    None,
    /// 10 to 13 from reading, 21 to 25 from comparing.
    Refused(u8),
    /// The number of bones read.
    Accepted(usize),
}

/// Reads, derives from the bones read and compares: 21 chains, 22 parents, 23 children, 24 inverse
/// matrices, 25 local matrices. Absent and empty lists are alike.
pub fn check(system: &[u8], graphics: &[u8], root: u64) -> Verdict {
    match read(system, graphics, root) {
        Answer::None => Verdict::None,
        Answer::Refused(n) => Verdict::Refused(n),
        Answer::Read(reading) => check_reading(&reading),
    }
}

/// The check of a section that was read.
pub fn check_reading(r: &Reading) -> Verdict {
    let bones: &[Bone] = r.bones.as_deref().unwrap_or(&[]);
    if chains_read(r).as_ref() != Some(&build_bone_tags(bones)) {
        return Verdict::Refused(21);
    }
    let (parents, children) = build_indices(bones);
    if r.parents.as_deref().unwrap_or(&[]) != parents {
        return Verdict::Refused(22);
    }
    if r.children.as_deref().unwrap_or(&[]) != children {
        return Verdict::Refused(23);
    }
    let (local, inverse) = build_transformations(bones);
    if !equal_words(&r.inverse, &inverse) {
        return Verdict::Refused(24);
    }
    if !equal_words(&r.local, &local) {
        return Verdict::Refused(25);
    }
    Verdict::Accepted(bones.len())
}

/// The chains by their links until 0; none at all when one of them is circular.
fn chains_read(r: &Reading) -> Option<Chains> {
    r.buckets.as_deref().unwrap_or(&[]).iter().map(|&first| chain_read(&r.entries, first)).collect()
}

fn chain_read(entries: &[Entry], first: Option<usize>) -> Option<Vec<(u32, u32)>> {
    let (mut met, mut at) = (Vec::new(), first);
    while let Some(row) = at {
        // More links than entries: the chain comes back to one of them.
        if met.len() == entries.len() {
            return None;
        }
        met.push((entries[row].tag, entries[row].position));
        at = entries[row].next;
    }
    Some(met)
}

/// Stored words against derived words, these with the format's NaN.
fn equal_words(stored: &Option<Vec<Matrix>>, derived: &[Matrix]) -> bool {
    let stored = stored.as_deref().unwrap_or(&[]);
    stored.len() == derived.len() && stored.iter().zip(derived).all(|(s, d)| *s == settle_nan(d))
}
