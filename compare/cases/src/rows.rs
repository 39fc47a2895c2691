//! Bones, chains and limits as rows of words, the form in which our library's tables hold them.

use crate::rng::Rng;
use oracle::{Bone, Chains, RotationLimit, TranslationLimit};

/// The words of a row.
pub const BONE: usize = 21;
pub const ENTRY: usize = 3;
pub const MATRIX: usize = 16;
pub const ROTATION: usize = 49;
pub const TRANSLATION: usize = 16;
/// Of 64 bits.
pub const POOL: usize = 4;

fn pair(lower: u16, upper: u16) -> u32 {
    lower as u32 | (upper as u32) << 16
}

fn halves(word: u32) -> (u16, u16) {
    (word as u16, (word >> 16) as u16)
}

fn taken<const N: usize>(row: &[u32], at: usize) -> [u32; N] {
    std::array::from_fn(|i| row[at + i])
}

/// Where a name lies; address 0 is no name.
#[derive(Clone, Copy, Debug, Default, PartialEq, Eq)]
pub struct Place {
    pub address: u64,
    pub size: u64,
}

impl Place {
    pub fn words(self) -> [u32; 4] {
        [self.address, self.address >> 32, self.size, self.size >> 32].map(|word| word as u32)
    }

    /// The place in a bone's row.
    pub fn of(row: &[u32]) -> Place {
        let number = |at: usize| row[at] as u64 | (row[at + 1] as u64) << 32;
        Place { address: number(17), size: number(19) }
    }
}

/// A bone's row, `spare` in the upper half of word 12.
fn bone_row(b: &Bone, spare: u16, name: [u32; 4]) -> [u32; BONE] {
    let shorts = [pair(b.next_sibling as u16, b.parent as u16), pair(b.flags, b.index as u16), pair(b.tag, spare)];
    let words = [&b.rotation[..], &b.translation, &b.scale, &shorts, &b.kept, &name].concat();
    words.try_into().expect("the words of a row")
}

/// The rows of the bones. What deriving does not look at, the upper half of word 12 and the name's place, is drawn.
pub fn bones(rng: &mut Rng, bones: &[Bone]) -> Vec<u32> {
    bones.iter().flat_map(|b| bone_row(b, rng.next() as u16, [0; 4].map(|_: u32| rng.next() as u32))).collect()
}

/// The rows of the bones with their names at these places, as reading lays them.
pub fn placed_bones(bones: &[Bone], names: &[Place]) -> Vec<u32> {
    bones.iter().zip(names).flat_map(|(b, name)| bone_row(b, 0, name.words())).collect()
}

/// The bone of a row, without its name.
pub fn bone(row: &[u32]) -> Bone {
    let ((next_sibling, parent), (flags, index)) = (halves(row[10]), halves(row[11]));
    Bone {
        rotation: taken(row, 0),
        translation: taken(row, 4),
        scale: taken(row, 7),
        next_sibling: next_sibling as i16,
        parent: parent as i16,
        name: None,
        flags,
        index: index as i16,
        tag: row[12] as u16,
        kept: taken(row, 13),
    }
}

/// The bucket words and the entry rows of chains in which each of `n` positions comes once: row p is position
/// p's, and a bucket or a link is 0 or one more than the row that it leads to.
pub fn chains(chains: &Chains, n: usize) -> (Vec<u32>, Vec<u32>) {
    let link = |e: Option<&(u32, u32)>| e.map_or(0, |&(_, position)| position + 1);
    let buckets: Vec<u32> = chains.iter().map(|c| link(c.first())).collect();
    let mut entries = vec![0; if chains.is_empty() { 0 } else { ENTRY * n }];
    for chain in chains {
        for (i, &(tag, position)) in chain.iter().enumerate() {
            let row = ENTRY * position as usize;
            entries[row..row + ENTRY].copy_from_slice(&[tag, position, link(chain.get(i + 1))]);
        }
    }
    (buckets, entries)
}

/// The slots of a rotation limit that no field names, in their order.
pub fn rotation_others() -> impl Iterator<Item = usize> {
    (0..48).filter(|slot| !matches!(slot, 2 | 23..=28))
}

/// The same of a translation limit.
pub fn translation_others() -> impl Iterator<Item = usize> {
    (0..16).filter(|slot| !matches!(slot, 2 | 8..=10 | 12..=14))
}

/// The words of a row from word 7 on in the slots that no field names; the others, which a row does not hold so, are 0.
fn slots<const N: usize>(row: &[u32], others: impl Iterator<Item = usize>) -> [u32; N] {
    let mut slots = [0; N];
    others.zip(&row[7..]).for_each(|(slot, &word)| slots[slot] = word);
    slots
}

/// The row of a rotation limit: id, least, greatest, the slots that no field names, the second number.
pub fn rotation(l: &RotationLimit) -> [u32; ROTATION] {
    let others: Vec<u32> = rotation_others().map(|slot| l.other[slot]).collect();
    let words = [&[l.id as u32][..], &l.min, &l.max, &others, &[l.second as u32]].concat();
    words.try_into().expect("the words of a row")
}

/// The limit of a row; `None` where its record has no room for the id. The upper half of the last word is not looked at.
pub fn rotation_limit(row: &[u32]) -> Option<RotationLimit> {
    let (id, second) = (row[0].try_into().ok()?, row[ROTATION - 1] as u16);
    Some(RotationLimit { id, second, min: taken(row, 1), max: taken(row, 4), other: slots(row, rotation_others()) })
}

/// The row of a translation limit: id, least, greatest, the slots that no field names.
pub fn translation(l: &TranslationLimit) -> [u32; TRANSLATION] {
    let others: Vec<u32> = translation_others().map(|slot| l.other[slot]).collect();
    let words = [&[l.id][..], &l.min, &l.max, &others].concat();
    words.try_into().expect("the words of a row")
}

pub fn translation_limit(row: &[u32]) -> TranslationLimit {
    TranslationLimit { id: row[0], min: taken(row, 1), max: taken(row, 4), other: slots(row, translation_others()) }
}
