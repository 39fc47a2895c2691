//! Each refusal, and the table of them.

use crate::rigs::{line, roots};
use crate::sections::{
    address, changed, one_chain, put64, target, BONES, CHILDREN, CUT, HORSE, INVERSE, LOCAL, PARENTS, SKELETON,
};
use rig::{build_bone_tags, build_indices, build_transformations, check, lookup, write, Bone, Refusal, SYSTEM_BASE};
use std::fs;

/// The table holds the refusals of the library's own list, with their numbers.
#[test]
fn the_table_is_the_librarys() {
    let source = fs::read_to_string(concat!(env!("CARGO_MANIFEST_DIR"), "/../../crates/format/src/lib.rt")).expect("the source");
    let line = |line: &str| {
        let (name, number) = line.trim().strip_suffix(',')?.split_once(" = ")?;
        Some((name.to_string(), number.parse::<u32>().ok()?))
    };
    let listed: Vec<_> = source.lines().filter_map(line).collect();
    let ours: Vec<_> = Refusal::ALL.iter().map(|refusal| (format!("{refusal:?}"), refusal.number())).collect();
    assert!(!listed.is_empty());
    assert_eq!(ours, listed);
}

#[test]
fn sentences() {
    for refusal in Refusal::ALL {
        assert_eq!(refusal.to_string(), format!("refused {}: {}", refusal.number(), refusal.sentence()));
        assert_eq!(Refusal::from_number(refusal.number()), Some(*refusal));
    }
    assert_eq!(
        check(CUT, &[], SYSTEM_BASE).unwrap_err().to_string(),
        "refused 21: the tag chains differ from those that follow from the bones: the game would not find each bone by its tag"
    );
}

#[test]
fn of_bones() {
    let named = |name| write(&[Bone { name: Some(name), ..Bone::default() }], [0; 4]).map(|_| ());
    assert_eq!(named(&[b'n'; 255]), Ok(()));
    assert_eq!(named(&[b'n'; 256]), Err(Refusal::BadName));
    assert_eq!(named(&[b'n'; 100_000]), Err(Refusal::BadName));
    assert_eq!(named(b"he\0ad"), Err(Refusal::BadName));
    assert_eq!(write(&line(8_193), [0; 4]), Err(Refusal::TooManyChildren));

    let mut many = roots(65_536);
    many[0].name = Some(b"\0");
    assert_eq!(write(&many, [0; 4]), Err(Refusal::TooManyBones));
    assert!(build_bone_tags(&many).is_err_and(|refusal| refusal == Refusal::TooManyBones));
    assert_eq!(build_indices(&many), Err(Refusal::TooManyBones));
    assert_eq!(build_transformations(&many), Err(Refusal::TooManyBones));
}

#[test]
fn of_sections() {
    let with = |pointer, value| {
        let mut section = HORSE.to_vec();
        put64(&mut section, pointer, value);
        check(&section, &[], SYSTEM_BASE)
    };
    assert_eq!(check(HORSE, &[], 0x7000_0000), Err(Refusal::BadAddress));
    assert_eq!(check(HORSE, &[], SYSTEM_BASE + (1 << 32)), Err(Refusal::BadAddress));
    assert_eq!(check(&[], &[], SYSTEM_BASE), Err(Refusal::PastTheEnd));
    assert_eq!(with(BONES, 15), Err(Refusal::BonesPointer));
    // the block, 16 bytes before the first bone, at the bucket array
    assert_eq!(with(BONES, address(SKELETON) + 16), Err(Refusal::OtherKind));
    let circle = one_chain(3, address(SKELETON + 16));
    assert_eq!(lookup(&circle, &[], SYSTEM_BASE, 7), Err(Refusal::ChainTooLong));
}

#[test]
fn of_lists() {
    let at = |pointer, offset| check(&changed(HORSE, target(HORSE, pointer) + offset), &[], SYSTEM_BASE);
    assert_eq!(check(CUT, &[], SYSTEM_BASE), Err(Refusal::Chains));
    assert_eq!(at(PARENTS, 2 * 12), Err(Refusal::Parents));
    assert_eq!(at(CHILDREN, 0), Err(Refusal::Children));
    assert_eq!(at(INVERSE, 64 * 12), Err(Refusal::Inverse));
    assert_eq!(at(LOCAL, 64 * 12), Err(Refusal::Local));
}
