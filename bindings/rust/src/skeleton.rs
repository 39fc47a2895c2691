//! Reading a skeleton.

use crate::bone::Bone;
use crate::chains::Chains;
use crate::ffi;
use crate::float::{matrices, Matrix};
use crate::refusal::{done, Refusal};
use crate::section::Section;
use crate::tables::{lend, ReadTables, BONE};
use crate::write::write;

/// The four words of a skeleton's record that follow from nothing else, at 28, 80, 84 and 88.
pub type FreeWords = [u32; 4];

/// A skeleton as it was read. A list that is absent is empty here: the check takes the two as alike.
#[derive(Clone, Debug)]
pub struct Skeleton<'a> {
    /// The kind word, whatever it is.
    pub kind: u32,
    /// The free words.
    pub free: FreeWords,
    /// The number of buckets that the record stores.
    pub bucket_count: u16,
    /// The number of bones that the record stores.
    pub bone_count: u16,
    /// The number of child entries that the record stores.
    pub child_count: u16,
    /// The bones, by position.
    pub bones: Vec<Bone<'a>>,
    /// The chains by which a bone is found.
    pub chains: Chains,
    /// The inverse of each bone's matrix in the skeleton.
    pub inverse: Vec<Matrix>,
    /// Each bone's matrix from its parent.
    pub local: Vec<Matrix>,
    /// Each bone's parent.
    pub parents: Vec<i16>,
    /// The child list: pairs of an index and its parent's, in layers of eight entries.
    pub children: Vec<i16>,
}

impl<'a> Skeleton<'a> {
    /// The skeleton at a root address; none at root 0. Names stay where they lie in the section.
    ///
    /// Lists are given as they are stored, whether or not they follow from the bones: [`check`](crate::check) tells that.
    ///
    /// ```
    /// # const HORSE: &[u8] = include_bytes!(concat!(env!("CARGO_MANIFEST_DIR"), "/../../examples/horse.section"));
    /// use rig::{Skeleton, SYSTEM_BASE};
    ///
    /// let horse = Skeleton::read(HORSE, &[], SYSTEM_BASE)?.expect("a root that is not 0");
    /// assert_eq!(horse.bones.len(), 13);
    /// assert_eq!(horse.bones[4].name, Some(&b"head"[..]));
    /// assert_eq!(horse.bones[4].parent, 3);
    /// assert_eq!(horse.chains.chain(27).map(|entry| entry.tag).collect::<Vec<_>>(), [839, 2086, 2057, 31086]);
    /// # Ok::<(), rig::Refusal>(())
    /// ```
    pub fn read(system: &'a [u8], graphics: &'a [u8], root: u64) -> Result<Option<Skeleton<'a>>, Refusal> {
        let section = Section { system, graphics, root };
        let mut fields = [0; 20];
        let (status, tables) = lend(&section, |tables| ffi::read(&section, tables, &mut fields));
        Ok(done(status)?.then(|| Skeleton::of_tables(&section, &tables, &fields)))
    }

    fn of_tables(section: &Section<'a>, tables: &ReadTables, fields: &[usize; 20]) -> Skeleton<'a> {
        // lengths of lists; before each stands whether there is the list, and its length is 0 where there is not
        let [buckets, bones, inverse, local, parents, children] = [9, 11, 13, 15, 17, 19].map(|field| fields[field]);
        Skeleton {
            kind: fields[0] as u32,
            free: [1, 2, 3, 4].map(|field| fields[field] as u32),
            bucket_count: fields[5] as u16,
            bone_count: fields[6] as u16,
            child_count: fields[7] as u16,
            bones: tables.bones[..BONE * bones].chunks_exact(BONE).map(|row| Bone::of_row(row, section)).collect(),
            chains: Chains::of_tables(&tables.buckets[..buckets], &tables.entries),
            inverse: matrices(&tables.inverse[..inverse]),
            local: matrices(&tables.local[..local]),
            parents: signed(&tables.parents[..parents]),
            children: signed(&tables.children[..children]),
        }
    }

    /// The section of these bones and free words. All lists are derived anew, so that this mends a section whose lists do not fit.
    ///
    /// ```
    /// # const CUT: &[u8] = include_bytes!(concat!(env!("CARGO_MANIFEST_DIR"), "/../../examples/horse_cut.section"));
    /// use rig::{check, Checked, Refusal, Skeleton, SYSTEM_BASE};
    ///
    /// assert_eq!(check(CUT, &[], SYSTEM_BASE), Err(Refusal::Chains));
    /// let horse = Skeleton::read(CUT, &[], SYSTEM_BASE)?.expect("a root that is not 0");
    /// assert_eq!(check(&horse.write()?, &[], SYSTEM_BASE), Ok(Checked::Accepted { bones: 13 }));
    /// # Ok::<(), rig::Refusal>(())
    /// ```
    pub fn write(&self) -> Result<Vec<u8>, Refusal> {
        write(&self.bones, self.free)
    }
}

pub(crate) fn signed(words: &[u16]) -> Vec<i16> {
    words.iter().map(|&word| word as i16).collect()
}
