//! Writing a skeleton.

use crate::bone::{Bone, Packed};
use crate::ffi;
use crate::refusal::{done, Refusal};
use crate::skeleton::FreeWords;
use crate::tables::{bucket_count, DerivedTables};

/// The most child entries that a section can have.
const MOST_CHILDREN: usize = 65_535;

/// The section of these bones, with all lists derived from them: the system half, its root at
/// [`SYSTEM_BASE`](crate::SYSTEM_BASE); there is no graphics half.
///
/// What is written is accepted by [`check`](crate::check), and reads back as the same bones in the same order, bit for bit.
///
/// Refused are, in this order, more than 65,535 bones, a name that is over 255 bytes or holds a zero byte, and bones whose child
/// list has more than 65,535 entries.
///
/// ```
/// use rig::{write, Bone, Skeleton, SYSTEM_BASE};
///
/// let bones = [
///     Bone { name: Some(b"root"), tag: 0, ..Bone::default() },
///     Bone { name: Some(b"tail"), tag: 839, index: 1, parent: 0, ..Bone::default() },
/// ];
/// let section = write(&bones, [0; 4])?;
/// let read = Skeleton::read(&section, &[], SYSTEM_BASE)?.expect("a root that is not 0");
/// assert_eq!(read.bones, bones);
/// # Ok::<(), rig::Refusal>(())
/// ```
pub fn write(bones: &[Bone], free: FreeWords) -> Result<Vec<u8>, Refusal> {
    let packed = Packed::new(bones);
    let mut tables = DerivedTables::new(bones.len());
    let mut out = vec![0; most_bytes(bones, &packed.names)];
    let mut count = 0;
    let status = ffi::write(&packed.rows, bones.len(), &packed.names, &free, &mut tables, &mut out, &mut count);
    done(status)?;
    out.truncate(count);
    Ok(out)
}

/// No section of these bones is longer: the parts in their order, and each as if it stood. Only the child list can be shorter.
fn most_bytes(bones: &[Bone], names: &[u8]) -> usize {
    let n = bones.len();
    let named = bones.iter().filter(|bone| bone.name.is_some()).count();
    let children = (8 * (n + 1)).min(MOST_CHILDREN);
    let parts = [
        112,                 // the skeleton's record
        8 * bucket_count(n), // bucket pointers
        16 * n,              // tag entries
        16 + 80 * n,         // the bones block
        names.len() + named, // names, each ended by a zero
        64 * n,              // inverse matrices
        64 * n,              // local matrices
        2 * n,               // parents
        2 * children,        // children
    ];
    parts.iter().map(|part| part.next_multiple_of(16)).sum()
}
