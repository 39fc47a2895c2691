//! The bytes that must exist, shown by cutting sections.

use super::ask::{cut, joints_refusal, reading, refusal, write};
use cases::records::{bone, joints, matrix, skeleton};
use cases::trial::{control_rig, plain_bone, NONE};
use cases::{units, Hand, Section};
use oracle::SYSTEM_BASE;

/// Whether the section reads exactly when at least `length` of its bytes stand; else 11.
fn needs(s: &Section, length: usize) {
    for n in 0..=s.system.len() {
        assert_eq!(refusal(&cut(s, n)), if n < length { 11 } else { 0 }, "cut at {n}");
    }
}

/// The last field read is the child count at 96.
pub fn skeleton_needs_98_bytes() {
    needs(&Hand::new().section(), 98);
}

/// The last field read is the tag at 68.
pub fn bone_needs_70_bytes() {
    let mut h = Hand::new();
    let first = h.add_bones(&[plain_bone(0, NONE)], &[]);
    needs(&h.section(), (first - SYSTEM_BASE) as usize + 70);
}

/// Only the header's address is examined: the section's end is legal, one byte more gives 11, neither half 10.
pub fn bones_block_header_needs_0_bytes() {
    let block_at = |block: u64| {
        let mut h = Hand::new();
        h.skeleton.bones = block + 16;
        refusal(&h.section())
    };
    let end = Hand::new().end();
    assert_eq!([block_at(end), block_at(end + 1), block_at(0x4000_0000)], [0, 11, 10]);
}

/// All 16 bytes of an entry are read.
pub fn tag_entry_needs_16_bytes() {
    let mut h = Hand::new();
    let entry = h.end() + 8;
    h.add_buckets(&[entry]);
    h.add(&units::entry(3, 0, 0));
    needs(&h.section(), (entry - SYSTEM_BASE) as usize + 16);
}

/// The last field read is the count at 50.
pub fn joints_need_52_bytes() {
    let s = Section::written(units::joints(0, 0, 0, 0));
    for n in 0..=joints::SIZE {
        assert_eq!(joints_refusal(&cut(&s, n)), if n < 52 { 11 } else { 0 }, "cut at {n}");
    }
}

/// Bucket array, matrices, parents, children and limits must stand whole.
pub fn arrays_need_all_their_bytes() {
    let lists: [(usize, fn(&mut units::Skeleton, u64)); 5] = [
        (8 * 3, |s, at| (s.buckets, s.bucket_count) = (at, 3)),
        (matrix::SIZE * 3, |s, at| (s.inverse, s.bone_count) = (at, 3)),
        (matrix::SIZE * 3, |s, at| (s.local, s.bone_count) = (at, 3)),
        (2 * 3, |s, at| (s.parents, s.bone_count) = (at, 3)),
        (2 * 3, |s, at| (s.children, s.child_count) = (at, 3)),
    ];
    for (length, point) in lists {
        let mut h = Hand::new();
        let at = h.add(&vec![0; length]);
        point(&mut h.skeleton, at);
        needs(&h.section(), skeleton::SIZE + length);
    }
    let behind = SYSTEM_BASE + joints::SIZE as u64;
    for (record, length) in [
        (units::joints(behind, 0, 2, 0), 2 * joints::ROTATION_LIMIT),
        (units::joints(0, behind, 0, 2), 2 * joints::TRANSLATION_LIMIT),
    ] {
        let s = Section::written([record, vec![0; length]].concat());
        for n in joints::SIZE..=s.system.len() {
            assert_eq!(joints_refusal(&cut(&s, n)), if n < s.system.len() { 11 } else { 0 });
        }
    }
}

/// A name at the section's end is empty; past it is 11.
pub fn name_needs_0_bytes() {
    let named = |past: u64| {
        let mut h = Hand::new();
        let name = h.next_bone() + bone::SIZE as u64 + past;
        h.add_bones(&[plain_bone(0, NONE)], &[name]);
        h.section()
    };
    assert_eq!(super::ask::bones(&named(0))[0].name.as_deref(), Some(&[][..]));
    assert_eq!(refusal(&named(1)), 11);
}

/// Constants, padding, the count at 26, the block's own count and the second index; the kind word is
/// handed back but not examined.
pub fn never_examined() {
    let good = Section::written(write(&control_rig()).section());
    let as_written = reading(&good);
    let block = (good.pointer(skeleton::BONES) - SYSTEM_BASE) as usize - 16;
    let mut unread: Vec<usize> = [0..16, 26..28, 72..80, 92..94, 98..112, block..block + 16].into_iter().flatten().collect();
    for i in 0..3 {
        let at = block + 16 + bone::SIZE * i;
        unread.extend(
            [at + 28..at + 32, at + 44..at + 48, at + 52..at + 56, at + bone::SECOND_INDEX..at + bone::SIZE]
                .into_iter()
                .flatten(),
        );
    }
    for at in unread {
        let mut s = good.clone();
        s.system[at] ^= 0xFF;
        let kind = s.u32(SYSTEM_BASE).unwrap();
        assert_eq!(reading(&s), oracle::Reading { kind, ..as_written.clone() }, "byte {at}");
    }
}

/// A skeleton at an odd address, with every part of it at an odd one.
pub fn unaligned_address_is_legal() {
    let mut h = Hand::behind(1);
    let entry = h.add(&units::entry(0, 1, 0));
    h.add_buckets(&[entry]);
    let name = h.add(b"abc\0");
    let first = h.add_bones(&[plain_bone(0, NONE)], &[name]);
    h.skeleton.parents = h.add(&units::indices(&[NONE]));
    assert!([h.root(), entry, name, first, h.skeleton.buckets, h.skeleton.parents].iter().all(|at| at % 2 == 1));
    assert_eq!(super::ask::bones(&h.section())[0].name.as_deref(), Some(&b"abc"[..]));
}
