//! Bytes that nobody meant as a section.

use crate::rigs::{line, rig};
use crate::rng::Rng;
use crate::sections::{address, put64, target, BONES, HORSE};
use rig::{check, find_by_key, lookup, write, Checked, Joints, Refusal, Skeleton, GRAPHICS_BASE, SYSTEM_BASE};

/// Makes every call on a section, and holds them to what is promised of them. Whether it was accepted.
fn asked(system: &[u8], graphics: &[u8], root: u64) -> bool {
    let checked = check(system, graphics, root);
    let read = Skeleton::read(system, graphics, root);
    let _ = Joints::read(system, graphics, root);
    let Ok(Some(skeleton)) = read else {
        // what does not read is refused as reading refuses it
        assert_eq!(read.map(|_| Checked::NoSkeleton), checked);
        return false;
    };
    assert_eq!(find_by_key(system, graphics, root, 0).err(), None);
    match checked {
        Ok(Checked::Accepted { bones }) => {
            assert_eq!(bones, skeleton.bones.len());
            if bones >= 2 {
                every_tag(system, graphics, root, &skeleton);
            }
        }
        Ok(Checked::NoSkeleton) => panic!("it was read"),
        Err(refusal) => assert!(refusal.number() > 20, "it was read, and then {refusal}"),
    }
    if let Ok(section) = skeleton.write() {
        assert_eq!(check(&section, &[], SYSTEM_BASE), Ok(Checked::Accepted { bones: skeleton.bones.len() }));
    }
    checked.is_ok()
}

/// The lookup of each bone's tag gives the greatest position that bears it.
fn every_tag(system: &[u8], graphics: &[u8], root: u64, skeleton: &Skeleton) {
    for bone in &skeleton.bones {
        let last = skeleton.bones.iter().rposition(|other| other.tag == bone.tag);
        assert_eq!(lookup(system, graphics, root, bone.tag), Ok(last));
    }
}

#[test]
fn truncations() {
    for length in 0..HORSE.len() {
        assert_eq!(check(&HORSE[..length], &[], SYSTEM_BASE), Err(Refusal::PastTheEnd));
        assert!(!asked(&HORSE[..length], &[], SYSTEM_BASE));
        let _ = lookup(&HORSE[..length], &[], SYSTEM_BASE, 31086);
    }
    assert!(asked(HORSE, &[], SYSTEM_BASE));
}

/// Names without an end, each some of the bytes of those before: reading copies none, and writing refuses them.
#[test]
fn names_that_run_to_the_end() {
    const N: usize = 500;
    let mut section = write(&line(N), [0; 4]).expect("bones that can be written");
    let (block, names) = (target(&section, BONES), section.len());
    section.resize(names + 50_000, b'n');
    for i in 0..N {
        put64(&mut section, block + 80 * i + 56, address(names + i));
    }
    let skeleton = Skeleton::read(&section, &[], SYSTEM_BASE).unwrap().unwrap();
    assert!(skeleton.bones.iter().enumerate().all(|(i, bone)| bone.name == Some(&section[names + i..])));
    assert_eq!(skeleton.write(), Err(Refusal::BadName));
}

/// Bytes and whole pointers set anew, in the horse and in random rigs.
#[test]
fn damage() {
    let mut rng = Rng::new(4);
    let (mut accepted, mut refused) = (0, 0);
    for round in 0..4000 {
        let n = rng.below(30);
        let mut section = if round % 2 == 0 { HORSE.to_vec() } else { write(&rig(&mut rng, n), [0; 4]).unwrap() };
        for _ in 0..=rng.below(3) {
            let at = rng.below(section.len());
            section[at] = rng.next() as u8;
        }
        if rng.below(3) == 0 {
            let (at, to) = (16 + 8 * rng.below(7), rng.below(section.len() + 1));
            put64(&mut section, at, address(to));
        }
        if asked(&section, &[], SYSTEM_BASE) {
            accepted += 1;
        } else {
            refused += 1;
        }
    }
    assert!(accepted > 100 && refused > 100, "{accepted} accepted, {refused} refused");
}

/// Up to 400 bytes, most of them such as pointers and small counts have.
fn bytes(rng: &mut Rng) -> Vec<u8> {
    let byte = |rng: &mut Rng| {
        let any = rng.next() as u8;
        rng.pick(&[0, 0, 0, 1, 0x50, 0x60, any])
    };
    (0..rng.below(400)).map(|_| byte(rng)).collect()
}

#[test]
fn any_bytes_and_roots() {
    let mut rng = Rng::new(5);
    for _ in 0..2000 {
        let bytes = bytes(&mut rng);
        let (system, graphics) = bytes.split_at(rng.below(bytes.len() + 1));
        let offset = rng.below(120) as u64;
        for root in [SYSTEM_BASE + offset, GRAPHICS_BASE + offset, rng.next(), u64::MAX, 1, 0] {
            asked(system, graphics, root);
        }
    }
}
