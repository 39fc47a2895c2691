//! Bones, and their rows in the library's tables.

use crate::float::{floats, taken, words, Float};
use crate::section::{Section, SYSTEM_BASE};
use crate::tables::BONE;
use std::borrow::Cow;

/// A bone. Its name lies where it was read, or where the caller keeps it.
///
/// ```
/// use rig::{floats, Bone};
///
/// let pelvis = Bone { name: Some(b"pelvis"), tag: 11816, translation: floats([0.0, 1.4, -0.5]), ..Bone::default() };
/// assert_eq!(pelvis.parent, -1);
/// ```
#[derive(Clone, Copy, Debug, PartialEq, Eq, Hash)]
pub struct Bone<'a> {
    /// The bytes of the name, which need not be UTF-8. No name and an empty name are two.
    pub name: Option<&'a [u8]>,
    /// The number by which the game finds the bone.
    pub tag: u16,
    /// The bone's index, by which other bones name it as their parent in the child list.
    pub index: i16,
    /// The parent's index; negative for a root. For the matrices it is taken as a position in the list of bones.
    pub parent: i16,
    /// The index of the next bone of the same parent, or -1.
    pub next_sibling: i16,
    /// The game's flags.
    pub flags: u16,
    /// A quaternion x, y, z, w.
    pub rotation: [Float; 4],
    /// From the parent.
    pub translation: [Float; 3],
    /// Along each axis.
    pub scale: [Float; 3],
    /// Column 4 of the bone's local matrix, which follows from nothing else.
    pub column4: [Float; 4],
}

/// A root at rest: no name, no rotation, no translation, scale 1; tag and index 0.
impl Default for Bone<'_> {
    fn default() -> Self {
        Bone {
            name: None,
            tag: 0,
            index: 0,
            parent: -1,
            next_sibling: -1,
            flags: 0,
            rotation: floats([0.0, 0.0, 0.0, 1.0]),
            translation: floats([0.0; 3]),
            scale: floats([1.0; 3]),
            column4: floats([0.0; 4]),
        }
    }
}

impl<'a> Bone<'a> {
    /// The name as text, other bytes than UTF-8 replaced.
    pub fn name_lossy(&self) -> Option<Cow<'a, str>> {
        self.name.map(String::from_utf8_lossy)
    }

    /// The bone of a row that was read from the section.
    pub(crate) fn of_row(row: &[u32], section: &Section<'a>) -> Bone<'a> {
        let ((next_sibling, parent), (flags, index)) = (halves(row[10]), halves(row[11]));
        Bone {
            name: name(row, section),
            tag: halves(row[12]).0,
            index: index as i16,
            parent: parent as i16,
            next_sibling: next_sibling as i16,
            flags,
            rotation: taken(&row[0..]),
            translation: taken(&row[4..]),
            scale: taken(&row[7..]),
            column4: taken(&row[13..]),
        }
    }

    /// The row of the bone, with a name of so many bytes at an address.
    fn row(&self, address: u64, size: u64) -> [u32; BONE] {
        let mut row = [0; BONE];
        row[0..4].copy_from_slice(&words(&self.rotation));
        row[4..7].copy_from_slice(&words(&self.translation));
        row[7..10].copy_from_slice(&words(&self.scale));
        row[10] = pair(self.next_sibling as u16, self.parent as u16);
        row[11] = pair(self.flags, self.index as u16);
        row[12] = u32::from(self.tag);
        row[13..17].copy_from_slice(&words(&self.column4));
        row[17..21].copy_from_slice(&[address as u32, (address >> 32) as u32, size as u32, (size >> 32) as u32]);
        row
    }
}

/// The name of a row: address 0 is no name.
fn name<'a>(row: &[u32], section: &Section<'a>) -> Option<&'a [u8]> {
    let number = |at: usize| u64::from(row[at]) | u64::from(row[at + 1]) << 32;
    let (address, size) = (number(17), number(19) as usize);
    (address != 0).then(|| section.part(address, size).expect("librig.a broke its contract: a name outside the section"))
}

fn pair(lower: u16, upper: u16) -> u32 {
    u32::from(lower) | u32::from(upper) << 16
}

fn halves(word: u32) -> (u16, u16) {
    (word as u16, (word >> 16) as u16)
}

/// Bones as the library takes them: a table of rows, and the bytes in which their names lie.
pub(crate) struct Packed {
    pub rows: Vec<u32>,
    pub names: Vec<u8>,
}

/// The longest name that can be written.
const LONGEST_NAME: usize = 255;

impl Packed {
    /// Of a name that is too long one byte too many is packed, for which it is refused as well. So the names of as many bones as can
    /// be written lie far within the half that they are lent as; more bones are refused before their names are looked at.
    pub fn new(bones: &[Bone]) -> Packed {
        let mut packed = Packed { rows: Vec::with_capacity(BONE * bones.len()), names: Vec::new() };
        for bone in bones {
            let name = bone.name.map(|name| &name[..name.len().min(LONGEST_NAME + 1)]);
            let address = name.map_or(0, |_| SYSTEM_BASE + packed.names.len() as u64);
            let name = name.unwrap_or_default();
            packed.names.extend_from_slice(name);
            packed.rows.extend(bone.row(address, name.len() as u64));
        }
        packed
    }
}
