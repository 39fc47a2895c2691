//! The horse of `examples/`.

use crate::sections::{CUT, HORSE};
use rig::{check, find_by_key, find_by_name, lookup, rage_joaat, Checked, Refusal, Skeleton, SYSTEM_BASE};

const NAMES: [&str; 13] =
    ["root", "pelvis", "spine", "neck", "head", "jaw", "rein_l", "rein_r", "fore_l", "fore_r", "hind_l", "hind_r", "tail"];

fn read(section: &[u8]) -> Skeleton<'_> {
    Skeleton::read(section, &[], SYSTEM_BASE).expect("a section that reads").expect("a root that is not 0")
}

#[test]
fn reads() {
    let horse = read(HORSE);
    assert_eq!(horse.bones.iter().map(|bone| bone.name_lossy().expect("a name")).collect::<Vec<_>>(), NAMES);
    assert_eq!((horse.bucket_count, horse.bone_count, horse.child_count), (29, 13, horse.children.len() as u16));
    assert_eq!(horse.parents, horse.bones.iter().map(|bone| bone.parent).collect::<Vec<_>>());
    for (at, bone) in horse.bones.iter().enumerate() {
        let next = horse.bones[at + 1..].iter().find(|later| later.parent == bone.parent);
        assert_eq!(bone.next_sibling, next.map_or(-1, |next| next.index));
    }
    assert_eq!((horse.inverse.len(), horse.local.len(), horse.chains.len()), (13, 13, 29));
    assert_eq!(horse.chains.entries().len(), 13);
    assert_eq!(horse.chains.iter().map(Iterator::count).sum::<usize>(), 13);
    assert_eq!(horse.bones[1].translation.map(|float| float.value()), [0.0, 1.4, -0.5]);
}

#[test]
fn check_tells_good_from_cut() {
    assert_eq!(check(HORSE, &[], SYSTEM_BASE), Ok(Checked::Accepted { bones: 13 }));
    assert_eq!(check(CUT, &[], SYSTEM_BASE), Err(Refusal::Chains));
    assert_eq!(check(HORSE, &[], 0), Ok(Checked::NoSkeleton));
    assert!(Skeleton::read(HORSE, &[], 0).is_ok_and(|skeleton| skeleton.is_none()));
}

#[test]
fn stands_in_the_graphics_half_too() {
    // the same bytes, each pointer into the other half
    let mut moved = HORSE.to_vec();
    for at in (0..moved.len()).step_by(8) {
        if moved[at + 3] == 0x50 && moved[at + 4..at + 8] == [0; 4] {
            moved[at + 3] = 0x60;
        }
    }
    assert_eq!(check(&[], &moved, rig::GRAPHICS_BASE), Ok(Checked::Accepted { bones: 13 }));
    assert_eq!(Skeleton::read(&[], &moved, rig::GRAPHICS_BASE).unwrap().unwrap().bones, read(HORSE).bones);
}

#[test]
fn every_tag_is_found() {
    let horse = read(HORSE);
    for tag in 0..=u16::MAX {
        let position = horse.bones.iter().rposition(|bone| bone.tag == tag);
        assert_eq!(lookup(HORSE, &[], SYSTEM_BASE, tag), Ok(position));
    }
}

#[test]
fn the_cut_hides_reins_and_head() {
    let hidden: Vec<_> = read(CUT)
        .bones
        .iter()
        .filter(|bone| lookup(CUT, &[], SYSTEM_BASE, bone.tag) == Ok(None))
        .map(|bone| bone.name_lossy().expect("a name"))
        .collect();
    assert_eq!(hidden, ["head", "rein_l", "rein_r"]);
}

#[test]
fn every_name_is_found() {
    for (position, name) in NAMES.iter().enumerate() {
        assert_eq!(find_by_name(HORSE, &[], SYSTEM_BASE, name.as_bytes()), Ok(Some(position)));
        assert_eq!(find_by_key(HORSE, &[], SYSTEM_BASE, rage_joaat(name.as_bytes())), Ok(Some(position)));
    }
    assert_eq!(find_by_name(HORSE, &[], SYSTEM_BASE, b"saddle"), Ok(None));
    assert_eq!(find_by_name(HORSE, &[], 0, b"head"), Ok(None));
    assert_eq!(find_by_name(&HORSE[..97], &[], SYSTEM_BASE, b"head"), Err(Refusal::PastTheEnd));
}

#[test]
fn writing_what_was_read_gives_the_same_bytes() {
    assert_eq!(read(HORSE).write().as_deref(), Ok(HORSE));
    assert_eq!(read(CUT).write().as_deref(), Ok(HORSE));
}
