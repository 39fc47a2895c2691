//! Writing: sections made by the published `Block::write` bodies at the places of docs/FORMAT.md.

use super::ask::{fresh_rotation_limit, joints_read, joints_status, joints_write, limit_read, limit_write, reading, write};
use crate::joints::limit::Kind;
use crate::joints::write::WriteInput;
use cases::records::skeleton as s;
use cases::rigs::{broad, LONGEST_WRITTEN};
use cases::trial::{plain_bone, NONE};
use cases::{rows, Rng, Section};
use oracle::{Bone, JointsAnswer, RotationLimit, Written};

fn named(names: &[Option<&[u8]>]) -> Section {
    let bones: Vec<Bone> =
        names.iter().enumerate().map(|(i, name)| Bone { name: name.map(<[u8]>::to_vec), ..plain_bone(i, NONE) }).collect();
    Section::written(write(&bones).section())
}

/// The part is aligned, the names in it are not; equal names are written twice; no name, no part.
pub fn names_part() {
    let section = named(&[Some(b"abc"), None, Some(b"abc"), Some(b"")]);
    let r = reading(&section);
    let first = r.name_addresses[0];
    assert_eq!((first % 16, &r.name_addresses[1..]), (0, &[0, first + 4, first + 8][..]));
    assert_eq!(section.pointer(s::INVERSE), first + 16);
    let section = named(&[None, None]);
    // the bones block ends where the inverse matrices begin
    assert_eq!(section.pointer(s::INVERSE), section.pointer(s::BONES) + 2 * 80);
}

/// One empty name is one zero byte: 16 bytes more than without a name.
pub fn empty_name_is_368_bytes() {
    assert_eq!(named(&[Some(b"")]).system.len(), 368);
    assert_eq!(named(&[None]).system.len(), 352);
}

/// 65,535 bones, each with a name of 255 bytes, and 65,528 child entries: 32,243,232 bytes.
pub fn largest_section() {
    let mut bones = broad(&mut Rng::new(1), 65_535, LONGEST_WRITTEN);
    bones.iter_mut().for_each(|b| b.name = Some(vec![b'n'; 255]));
    let section = Section::written(write(&bones).section());
    assert_eq!(section.system.len(), 32_243_232);
    assert_eq!((section.count(s::BONE_COUNT), section.count(s::CHILD_COUNT)), (65_535, 65_528));
    assert_eq!(reading(&section).bones, Some(bones));
}

/// A chain of 8,192 bones has 65,528 child entries; 8,193 bones have 65,536, which is 3.
pub fn child_entries_65528_and_65536() {
    let chain = |bones: usize| broad(&mut Rng::new(1), bones, bones);
    let section = Section::written(write(&chain(8_192)).section());
    assert_eq!(section.count(s::CHILD_COUNT), 65_528);
    assert_eq!(reading(&section).children.map(|c| c.len()), Some(65_528));
    assert_eq!(write(&chain(8_193)), Written::Refused(3));
}

/// The slots 2 and 23 to 28 of the Rust's other words are never written; reading fills them from the named fields. Our row has no
/// such words, and reads back as it was.
pub fn rotation_limit_named_slots_win() {
    let limit = RotationLimit { id: 1, second: 2, min: [3, 4, 5], max: [6, 7, 8], ..fresh_rotation_limit() };
    let written = joints_write(&[limit], &[]);
    for slot in 0..48 {
        let mut other = limit;
        other.other[slot] ^= 0xFFFF_FFFF;
        let named = slot == 2 || (23..=28).contains(&slot);
        assert_eq!(joints_write(&[other], &[]) == written, named, "slot {slot}");
        assert_eq!(rows::rotation(&other) == rows::rotation(&limit), named, "slot {slot}");
    }
    let section = written.section();
    let JointsAnswer::Read(back) = joints_read(&Section::written(section.clone())) else { panic!("not read") };
    let back = back.rotations.unwrap()[0];
    assert_eq!((back.id, back.second, back.min, back.max), (1, 2, [3, 4, 5], [6, 7, 8]));
    assert_eq!(back.other[2], 0x0002_0001);
    assert_eq!(back.other[23..29], [3, 4, 5, 6, 7, 8]);
    assert_eq!(rows::rotation(&back), rows::rotation(&limit));
    assert_eq!(limit_read(Kind::Rotation, &section[64..]), rows::rotation(&limit));
    assert_eq!(limit_write(Kind::Rotation, &rows::rotation(&limit), 192), (0, section[64..].to_vec()));
}

/// Rows of limits with these ids, of which so many are asked for, and a buffer of so many bytes.
fn with_ids(rotations: &[u32], r: usize, translations: &[u32], t: usize, out: usize) -> WriteInput {
    let (mut rotation, mut translation) = (Vec::new(), Vec::new());
    rotations.iter().for_each(|&id| rotation.extend([&[id][..], &[7; rows::ROTATION - 1]].concat()));
    translations.iter().for_each(|&id| translation.extend([&[id][..], &[7; rows::TRANSLATION - 1]].concat()));
    WriteInput { rotation, r, translation, t, out, dirt: 1 }
}

/// The Rust's id of a rotation limit has 16 bits, that of a translation limit 32; ours have 32 bits in both rows, and a rotation
/// limit's above 65,535 is refused. What is behind the rows asked for is not looked at.
pub fn rotation_id_above_65535_is_35() {
    let rotation = |ids: &[u32], r: usize| joints_status(&with_ids(ids, r, &[], 0, 64 + 192 * r));
    assert_eq!([0, 65_535, 65_536, u32::MAX].map(|id| rotation(&[id], 1)), [0, 0, 35, 35]);
    assert_eq!([[65_536, 0, 0], [0, 65_536, 0], [0, 0, 65_536]].map(|ids| rotation(&ids, 3)), [35; 3]);
    assert_eq!([0, 1, 2].map(|r| rotation(&[0, 65_536], r)), [0, 0, 35]);
    assert_eq!(joints_status(&with_ids(&[], 0, &[65_536, u32::MAX], 2, 192)), 0);
    let limit = |kind: Kind, id: u32| limit_write(kind, &[&[id][..], &vec![7; kind.words() - 1]].concat(), kind.bytes()).0;
    assert_eq!([65_535, 65_536, u32::MAX].map(|id| limit(Kind::Rotation, id)), [0, 35, 35]);
    assert_eq!([65_535, 65_536, u32::MAX].map(|id| limit(Kind::Translation, id)), [0; 3]);
}

/// 6 of either list, 1 of either table, 35, 5: each is met with all behind it, and then without it.
pub fn six_one_thirty_five_five() {
    let wide = |r: usize, t: usize, out: usize| joints_status(&with_ids(&[65_536], r, &[0], t, out));
    assert_eq!([wide(65_536, 2, 0), wide(2, 65_536, 0)], [6, 6]);
    assert_eq!([wide(2, 1, 0), wide(1, 2, 0), wide(65_535, 1, 0), wide(1, 65_535, 0)], [1; 4]);
    assert_eq!([wide(1, 1, 0), wide(1, 1, 319), wide(1, 1, 320)], [35; 3]);
    let narrow = |out: usize| joints_status(&with_ids(&[65_535], 1, &[0], 1, out));
    assert_eq!([narrow(0), narrow(319), narrow(320)], [5, 5, 0]);
    let one = |id: u32, out: usize| limit_write(Kind::Rotation, &[&[id][..], &[7; 48]].concat(), out).0;
    assert_eq!([one(65_536, 0), one(65_536, 191), one(65_536, 192)], [35; 3]);
    assert_eq!([one(65_535, 0), one(65_535, 191), one(65_535, 192)], [5, 5, 0]);
}

/// The second number is the lower half of its word: reading stores 0 in the upper one, writing does not look at it.
pub fn upper_half_of_the_second_number() {
    let record: Vec<u8> = (0..192).map(|byte| byte as u8).collect();
    let row = limit_read(Kind::Rotation, &record);
    assert_eq!((row[0], row[48]), (0x0908, 0x0B0A));
    let mut filled = row;
    filled[48] |= 0xFFFF_0000;
    assert_eq!(limit_write(Kind::Rotation, &filled, 192), (0, record));
}
