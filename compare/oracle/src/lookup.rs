//! The tag lookup of docs/FORMAT.md, read from its text over the published `Reader`.

use crate::header::{header, Header};
use crate::refusal::number;
use rage_formats::blocks::{ydr, Reader};

/// What the lookup answers.
#[derive(Clone, Copy, Debug, PartialEq, Eq)]
pub enum Found {
    None,
    /// 10, 11 or 14.
    Refused(u8),
    /// The position in the first entry with the tag.
    At(u32),
}

/// Follows the chain of `tag` in the skeleton at `root`.
pub fn lookup(system: &[u8], graphics: &[u8], root: u64, tag: u32) -> Found {
    if root == 0 {
        return Found::None;
    }
    let r = ydr::reader(system, graphics);
    follow(&r, root, tag).unwrap_or_else(|e| Found::Refused(number(&e)))
}

fn follow(r: &Reader, root: u64, tag: u32) -> Result<Found, String> {
    let Header { buckets, bucket_count, bone_count, .. } = header(r, root)?;
    if buckets == 0 || bucket_count == 0 {
        return Ok(Found::None);
    }
    let firsts = r.u64s(buckets, bucket_count).map_err(|e| e.to_string())?;
    let mut next = firsts[tag as usize % bucket_count];
    for visited in 0.. {
        if next == 0 {
            return Ok(Found::None);
        }
        if visited == bone_count {
            return Ok(Found::Refused(14));
        }
        let mut c = r.cursor(next).map_err(|e| e.to_string())?;
        let (entry_tag, position) = (c.u32(), c.u32());
        next = c.u64();
        c.check().map_err(|e| e.to_string())?;
        if entry_tag == tag {
            return Ok(Found::At(position));
        }
    }
    unreachable!("a chain is followed for at most 65,535 entries")
}
