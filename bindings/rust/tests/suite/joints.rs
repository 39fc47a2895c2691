//! Joints.

use crate::rng::Rng;
use rig::{floats, Float, Joints, Refusal, RotationLimit, TranslationLimit, GRAPHICS_BASE, SYSTEM_BASE};

/// Ids at the bounds, and whether the 16 bits of a rotation limit's record hold them.
const IDS: [(u32, bool); 4] = [(0, true), (65_535, true), (65_536, false), (u32::MAX, false)];

/// The slots that the other words of a limit are.
fn rotation_slots() -> impl Iterator<Item = usize> {
    (0..48).filter(|slot| !matches!(slot, 2 | 23..=28))
}

fn translation_slots() -> impl Iterator<Item = usize> {
    (0..16).filter(|slot| !matches!(slot, 2 | 8..=10 | 12..=14))
}

fn words<const N: usize>(rng: &mut Rng) -> [u32; N] {
    std::array::from_fn(|_| rng.next() as u32)
}

fn drawn(rng: &mut Rng) -> [Float; 3] {
    words(rng).map(Float::from_bits)
}

fn rotation(rng: &mut Rng) -> RotationLimit {
    let (bone_id, unknown_a) = (u32::from(rng.next() as u16), rng.next() as u16);
    RotationLimit { bone_id, unknown_a, min: drawn(rng), max: drawn(rng), other: words(rng) }
}

fn translation(rng: &mut Rng) -> TranslationLimit {
    TranslationLimit { bone_id: rng.next() as u32, min: drawn(rng), max: drawn(rng), other: words(rng) }
}

/// The section of limits, which must read back as they are.
fn written(joints: &Joints) -> Vec<u8> {
    let section = joints.write().expect("limits that can be written");
    assert_eq!(section.len(), 64 + 192 * joints.rotation_limits.len() + 64 * joints.translation_limits.len());
    let read = Joints::read(&section, &[], SYSTEM_BASE).expect("a section that reads").expect("a root that is not 0");
    assert_eq!(read, *joints);
    section
}

#[test]
fn round_trip() {
    let mut rng = Rng::new(3);
    for round in 0..200 {
        let joints = Joints {
            rotation_limits: (0..round % 7).map(|_| rotation(&mut rng)).collect(),
            translation_limits: (0..round % 5).map(|_| translation(&mut rng)).collect(),
        };
        let section = written(&joints);
        // the records are those of the single limits
        let (rotations, translations) = section[64..].split_at(192 * joints.rotation_limits.len());
        for (limit, record) in joints.rotation_limits.iter().zip(rotations.chunks(192)) {
            assert_eq!(limit.write().expect("an id of 16 bits"), *record);
        }
        for (limit, record) in joints.translation_limits.iter().zip(translations.chunks(64)) {
            assert_eq!(limit.write(), *record);
        }
    }
}

/// Each word of a record is in its field, and the record is written as it was.
#[test]
fn records() {
    let mut rng = Rng::new(7);
    for _ in 0..200 {
        let slots: [u32; 48] = words(&mut rng);
        let record: [u8; 192] = std::array::from_fn(|i| slots[i / 4].to_le_bytes()[i % 4]);
        let limit = RotationLimit::read(&record);
        assert_eq!((limit.bone_id, limit.unknown_a), (slots[2] & 0xFFFF, (slots[2] >> 16) as u16));
        assert_eq!(limit.min.map(Float::to_bits), slots[23..26]);
        assert_eq!(limit.max.map(Float::to_bits), slots[26..29]);
        assert!(limit.other.iter().copied().eq(rotation_slots().map(|slot| slots[slot])));
        assert_eq!(limit.write(), Ok(record));

        let slots: [u32; 16] = words(&mut rng);
        let record: [u8; 64] = std::array::from_fn(|i| slots[i / 4].to_le_bytes()[i % 4]);
        let limit = TranslationLimit::read(&record);
        assert_eq!(limit.bone_id, slots[2]);
        assert_eq!(limit.min.map(Float::to_bits), slots[8..11]);
        assert_eq!(limit.max.map(Float::to_bits), slots[12..15]);
        assert!(limit.other.iter().copied().eq(translation_slots().map(|slot| slots[slot])));
        assert_eq!(limit.write(), record);
    }
}

#[test]
fn a_fresh_rotation_limit() {
    let fresh = RotationLimit::default();
    assert_eq!((fresh.bone_id, fresh.unknown_a, fresh.min, fresh.max), (0, 0, floats([0.0; 3]), floats([0.0; 3])));
    let slot = |slot| fresh.other[rotation_slots().position(|other| other == slot).expect("a slot that no field names")];
    assert_eq!([0, 1, 3, 4, 47].map(slot), [0, 0, 1, 3, 256]);
    let pi = std::f32::consts::PI;
    assert_eq!([20, 21, 22, 29, 30].map(|at| f32::from_bits(slot(at))), [-pi, pi, 1.0, pi, -pi]);
}

/// Both kinds hold an id as 32 bits; writing refuses a rotation limit's that its record cannot hold, wherever it is in the list.
#[test]
fn ids() {
    let mut rng = Rng::new(5);
    for (bone_id, held) in IDS {
        let moved = TranslationLimit { bone_id, ..translation(&mut rng) };
        assert_eq!(TranslationLimit::read(&moved.write()), moved);
        written(&Joints { rotation_limits: vec![], translation_limits: vec![moved; 2] });

        let turned = RotationLimit { bone_id, ..rotation(&mut rng) };
        let refused = if held { Ok(()) } else { Err(Refusal::BadLimitId) };
        assert_eq!(turned.write().map(|record| assert_eq!(RotationLimit::read(&record), turned)), refused);
        for place in 0..3 {
            let mut joints =
                Joints { rotation_limits: (0..3).map(|_| rotation(&mut rng)).collect(), translation_limits: vec![moved] };
            written(&joints);
            joints.rotation_limits[place] = turned;
            assert_eq!(joints.write().map(|_| drop(written(&joints))), refused);
        }
    }
}

#[test]
fn none_and_refusals() {
    let limits = |r, t| Joints {
        rotation_limits: vec![RotationLimit::default(); r],
        translation_limits: vec![TranslationLimit::default(); t],
    };
    let section = limits(2, 3).write().expect("limits that can be written");
    assert_eq!(Joints::read(&section, &[], 0), Ok(None));
    assert_eq!(Joints::read(&section, &[], GRAPHICS_BASE), Err(Refusal::PastTheEnd));
    assert_eq!(Joints::read(&section, &[], 0x7000_0000), Err(Refusal::BadAddress));
    for length in 0..section.len() {
        assert_eq!(Joints::read(&section[..length], &[], SYSTEM_BASE), Err(Refusal::PastTheEnd));
    }
    // of too many limits, and a wide id among them, the first is told
    for (r, t) in [(65_536, 0), (1, 65_536)] {
        let mut many = limits(r, t);
        assert_eq!(many.write(), Err(Refusal::TooManyLimits));
        many.rotation_limits[0].bone_id = 65_536;
        assert_eq!(many.write(), Err(Refusal::TooManyLimits));
    }
    let mut most = limits(65_535, 65_535);
    written(&most);
    most.rotation_limits[65_534].bone_id = 65_536;
    assert_eq!(most.write(), Err(Refusal::BadLimitId));
}
