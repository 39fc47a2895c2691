//! Small sections laid for single questions.

use cases::records::{bone, skeleton};
use cases::rigs::broad;
use cases::trial::plain_bone;
use cases::{units, Hand, Rng, Section};
use oracle::{write, Bone};

/// The tags below this one are looked up in each section of `chains`.
pub const TAGS: u16 = 12;

/// Sections whose buckets and chains are at a bound of the lookup.
pub fn chains() -> Vec<Section> {
    const NEITHER: u64 = 0x7000_0000;
    let mut all = vec![Hand::new().section()];
    // an entry whose tag is 5 in its lower 16 bits only, then one whose tag is 5
    all.extend((0..4).map(|bones| chain(&[(65_541, 7), (5, 8)], 0, bones)));
    // a link that is examined only if fewer entries were visited than there are bones
    all.extend((0..4).map(|bones| chain(&[(3, 1), (4, 2)], NEITHER, bones)));
    all.extend((0..4).map(|bones| circle(bones)));
    // pointers and counts that are not examined, and some that are
    for (pointer, count) in [(0, 5), (NEITHER, 0), (NEITHER, 5), (u64::MAX, 1), (0x5000_0070, 1), (0x5000_0069, 1)] {
        let mut h = Hand::new();
        (h.skeleton.buckets, h.skeleton.bucket_count, h.skeleton.bone_count) = (pointer, count, 1);
        all.extend(h.section().truncations().filter(|cut| cut.system.len() >= 96));
    }
    all
}

/// One bucket and its chain of tags and positions, the last link as given, with so many bones stored.
fn chain(entries: &[(u32, u32)], last: u64, bones: u16) -> Section {
    let mut h = Hand::new();
    let mut next = last;
    for &(tag, position) in entries.iter().rev() {
        next = h.add(&units::entry(tag, position, next));
    }
    h.add_buckets(&[next]);
    h.skeleton.bone_count = bones;
    h.section()
}

/// One bucket and an entry that links to itself.
fn circle(bones: u16) -> Section {
    let mut h = Hand::new();
    let at = h.end();
    h.add(&units::entry(3, 1, at));
    h.add_buckets(&[at]);
    h.skeleton.bone_count = bones;
    h.section()
}

/// Sections of which the check is asked besides.
pub fn checked() -> Vec<Section> {
    // no bones, with a count of 5 stored: the bones read are counted
    let mut counted = Hand::new();
    counted.skeleton.bone_count = 5;
    // one bone, with the lists of none
    let mut bare = Hand::new();
    bare.add_bones(&[plain_bone(0, -1)], &[]);
    [counted.section(), bare.section()].into_iter().chain(chains()).collect()
}

/// A good section whose bones bear the tags at the bounds, two of them twice.
pub fn bound_tags() -> Section {
    let tags = [0, 65_535, 32_767, 32_768, 65_535, 1, 65_534, 0];
    let bones: Vec<_> = tags.iter().enumerate().map(|(i, &tag)| Bone { tag, ..plain_bone(i, i as i16 - 1) }).collect();
    Section::written(write(&bones, [0; 4]).section())
}

/// 65,535 bones of index and parent -1 with their chains and parents. Each bone is the child of all, so that 524,288 child
/// entries are derived, which no stored list has: 23. The Rust would take memory with the square of the count.
pub fn one_index() -> Section {
    const BONES: usize = 65_535;
    let mut section = Section::written(write(&broad(&mut Rng::new(1), BONES, 100), [0; 4]).section());
    let [bones, parents] = [skeleton::BONES, skeleton::PARENTS].map(|list| section.pointer(list));
    for i in 0..BONES as u64 {
        let at = bones + bone::SIZE as u64 * i;
        section.put_u16(at + bone::INDEX as u64, u16::MAX);
        section.put_u16(at + bone::PARENT as u64, u16::MAX);
        section.put_u16(parents + 2 * i, u16::MAX);
    }
    section
}
