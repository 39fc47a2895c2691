//! Finding a bone, by its tag as the game does, and by its name.

use crate::ffi;
use crate::refusal::{done, Refusal};
use crate::section::Section;
use crate::tables::lend;

/// The position that the chains give for a tag, found in the section's bytes as the game finds it; none where no entry has the tag.
///
/// Nothing but the tag's own chain is looked at. In a section that [`check`](crate::check) accepts, of two or more bones, it is the
/// greatest position of a bone with that tag; in others it may be any number of 32 bits.
///
/// ```
/// # const HORSE: &[u8] = include_bytes!(concat!(env!("CARGO_MANIFEST_DIR"), "/../../examples/horse.section"));
/// # const CUT: &[u8] = include_bytes!(concat!(env!("CARGO_MANIFEST_DIR"), "/../../examples/horse_cut.section"));
/// use rig::{lookup, SYSTEM_BASE};
///
/// const HEAD: u16 = 31086;
/// assert_eq!(lookup(HORSE, &[], SYSTEM_BASE, HEAD), Ok(Some(4)));
/// assert_eq!(lookup(CUT, &[], SYSTEM_BASE, HEAD), Ok(None));
/// ```
pub fn lookup(system: &[u8], graphics: &[u8], root: u64, tag: u16) -> Result<Option<usize>, Refusal> {
    let mut position = 0;
    let status = ffi::lookup(&Section { system, graphics, root }, tag, &mut position);
    Ok(done(status)?.then_some(position))
}

/// The position of the first bone whose name has a key, [`rage_joaat`] of the name; none where no name has it. The section is read.
pub fn find_by_key(system: &[u8], graphics: &[u8], root: u64, key: u32) -> Result<Option<usize>, Refusal> {
    let section = Section { system, graphics, root };
    let mut position = 0;
    let (status, _) = lend(&section, |tables| ffi::search(&section, key, tables, &mut position));
    Ok(done(status)?.then_some(position))
}

/// The position of the first bone whose name has the key of this one, as the game's scripts find it: another name with the same key
/// is found as well.
///
/// ```
/// # const HORSE: &[u8] = include_bytes!(concat!(env!("CARGO_MANIFEST_DIR"), "/../../examples/horse.section"));
/// use rig::{find_by_key, find_by_name, rage_joaat, SYSTEM_BASE};
///
/// assert_eq!(find_by_name(HORSE, &[], SYSTEM_BASE, b"rein_r"), Ok(Some(7)));
/// assert_eq!(find_by_key(HORSE, &[], SYSTEM_BASE, rage_joaat(b"rein_r")), Ok(Some(7)));
/// assert_eq!(find_by_name(HORSE, &[], SYSTEM_BASE, b"stirrup"), Ok(None));
/// ```
pub fn find_by_name(system: &[u8], graphics: &[u8], root: u64, name: &[u8]) -> Result<Option<usize>, Refusal> {
    find_by_key(system, graphics, root, rage_joaat(name))
}

/// The key of a name: its hash, of the bytes as they stand.
///
/// ```
/// assert_eq!(rig::rage_joaat(b""), 0);
/// assert_eq!(rig::rage_joaat(b"a"), 0xCA2E_9442);
/// ```
pub fn rage_joaat(name: &[u8]) -> u32 {
    ffi::rage_joaat(name)
}
