//! Where addresses lead.

use super::ask::{bones, joints_refusal, reading, refusal};
use cases::records::bone;
use cases::trial::{plain_bone, NONE};
use cases::{units, Hand, Section};
use oracle::{Bone, ResReader, GRAPHICS_BASE, SYSTEM_BASE};

/// The block lies at pointer - 16 and only that address is looked up.
pub fn bones_pointer_ranges() {
    let at = |pointer: u64| {
        let mut h = Hand::new();
        h.graphics = vec![0; 200];
        h.skeleton.bones = pointer;
        h.section()
    };
    for low in 0..16 {
        assert_eq!(refusal(&at(SYSTEM_BASE + low)), 10);
        assert_eq!(refusal(&at(GRAPHICS_BASE + low)), 11);
        assert_eq!(refusal(&at(0x7000_0000 + low)), 11);
    }
    for pointer in 1..16 {
        assert_eq!(refusal(&at(pointer)), 13);
    }
    assert!(reading(&at(0)).bones.is_none() && reading(&at(16)).bones.is_none());
    assert_eq!(refusal(&at(17)), 10);
    assert_eq!(refusal(&at(SYSTEM_BASE + 16)), 0);
    assert_eq!(refusal(&at(GRAPHICS_BASE + 16)), 0);
}

/// Also with a bone count of 0; a chain that refuses goes before.
pub fn thirteen_comes_after_chains() {
    let mut h = Hand::new();
    h.skeleton.bones = 15;
    assert_eq!(refusal(&h.section()), 13);
    h.add_buckets(&[0x4000_0000]);
    assert_eq!(refusal(&h.section()), 10);
}

/// Bone i lies at block + 16 + 80 * i: an entry read there stops exactly that bone.
pub fn each_bone_by_its_own_address() {
    // a rotation of zeros, so that the bone's first bytes are an entry with the link 0
    let bones: Vec<_> = (0..3).map(|i| Bone { rotation: [0; 4], ..plain_bone(i, NONE) }).collect();
    for i in 0..3 {
        let mut h = Hand::new();
        let first = h.end() + 8 + 16;
        h.add_buckets(&[first + (bone::SIZE * i) as u64]);
        h.add_bones(&bones, &[]);
        for count in 0..=3 {
            h.skeleton.bone_count = count;
            assert_eq!(refusal(&h.section()), if count as usize > i { 12 } else { 0 });
        }
    }
}

/// A name ends and an array is refused at the end of its half, whatever the other half holds.
pub fn names_and_arrays_lie_in_one_half() {
    let mut h = Hand::new();
    h.graphics = b"more\0 and more".to_vec();
    let name = h.next_bone() + bone::SIZE as u64;
    h.add_bones(&[plain_bone(0, NONE)], &[name]);
    h.add(b"end");
    assert_eq!(bones(&h.section())[0].name.as_deref(), Some(&b"end"[..]));
    h.skeleton.parents = h.end() - 1;
    assert_eq!(refusal(&h.section()), 11);
}

/// Buckets, matrices, parents, children and limits; any 64-bit value becomes a pool address.
pub fn count_0_is_pooled_unexamined() {
    let mut h = Hand::new();
    h.skeleton = units::Skeleton {
        buckets: u64::MAX,
        inverse: 1,
        local: 2,
        parents: 1 << 40,
        children: 0x4000_0000,
        ..Default::default()
    };
    let r = reading(&h.section());
    assert_eq!((r.buckets, r.inverse, r.local), (Some(vec![]), Some(vec![]), Some(vec![])));
    assert_eq!((r.parents, r.children), (Some(vec![]), Some(vec![])));
    // five lists and the skeleton
    assert_eq!(r.rows.pool, 6);
    let joints = Section::written(units::joints(u64::MAX, 7, 0, 0));
    assert_eq!(joints_refusal(&joints), 0);
}

/// `ResReader` gives up an unended name and any name in the graphics half; the reference reads both.
pub fn res_reader_follows_other_rules() {
    let mut h = Hand::new();
    h.graphics = b"Tail\0".to_vec();
    let unended = h.next_bone() + 2 * bone::SIZE as u64;
    h.add_bones(&[plain_bone(0, NONE), plain_bone(1, 0)], &[unended, GRAPHICS_BASE]);
    h.add(b"He");
    let s = h.section();
    let read: Vec<_> = bones(&s).into_iter().map(|b| b.name).collect();
    assert_eq!(read, [Some(b"He".to_vec()), Some(b"Tail".to_vec())]);
    let other = ResReader { system: &s.system, graphics: &s.graphics };
    assert_eq!([other.string_at(unended), other.string_at(GRAPHICS_BASE)], [None, None]);
}
