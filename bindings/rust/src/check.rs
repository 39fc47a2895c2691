//! The check of a section.

use crate::ffi;
use crate::refusal::{done, Refusal};
use crate::section::Section;
use crate::tables::{lend, DerivedTables, Rows};

/// What the check of a section found, where it was not refused.
#[derive(Clone, Copy, Debug, PartialEq, Eq, Hash)]
#[must_use]
pub enum Checked {
    /// The root address is 0: there is no skeleton to upload.
    NoSkeleton,
    /// Every list is the one that follows from the bones.
    Accepted {
        /// The number of bones.
        bones: usize,
    },
}

/// The one call before upload: whether the skeleton at a root address reads, and its chains, parents, children and matrices are
/// those that follow from its bones.
///
/// In an accepted section of two or more bones, [`lookup`](crate::lookup) finds every bone's tag.
///
/// ```
/// # const HORSE: &[u8] = include_bytes!(concat!(env!("CARGO_MANIFEST_DIR"), "/../../examples/horse.section"));
/// # const CUT: &[u8] = include_bytes!(concat!(env!("CARGO_MANIFEST_DIR"), "/../../examples/horse_cut.section"));
/// use rig::{check, Checked, SYSTEM_BASE};
///
/// assert_eq!(check(HORSE, &[], SYSTEM_BASE), Ok(Checked::Accepted { bones: 13 }));
/// assert_eq!(check(HORSE, &[], 0), Ok(Checked::NoSkeleton));
///
/// let refusal = check(CUT, &[], SYSTEM_BASE).unwrap_err();
/// assert_eq!(
///     refusal.to_string(),
///     "refused 21: the tag chains differ from those that follow from the bones: the game would not find each bone by its tag"
/// );
/// ```
pub fn check(system: &[u8], graphics: &[u8], root: u64) -> Result<Checked, Refusal> {
    let section = Section { system, graphics, root };
    let mut derived = DerivedTables::new(Rows::of(&section).bones);
    let mut bones = 0;
    let (status, _) = lend(&section, |tables| ffi::check(&section, tables, &mut derived, &mut bones));
    Ok(if done(status)? { Checked::Accepted { bones } } else { Checked::NoSkeleton })
}
