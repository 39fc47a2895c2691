//! Joints sections: good ones, and damaged ones of one to three named changes.

use crate::damage::Change;
use crate::limits::{rotation_limit, translation_limit};
use crate::random::Case;
use crate::records::joints as j;
use crate::rng::Rng;
use crate::scattered::Places;
use crate::section::Section;
use crate::units;
use oracle::{joints_write, RotationLimit, TranslationLimit, GRAPHICS_BASE, SYSTEM_BASE};

/// Up to three limits of each kind.
pub fn limits(rng: &mut Rng) -> (Vec<RotationLimit>, Vec<TranslationLimit>) {
    let rotations = (0..rng.below(4)).map(|_| rotation_limit(rng)).collect();
    (rotations, (0..rng.below(4)).map(|_| translation_limit(rng)).collect())
}

/// A good section: written by the layout of docs/FORMAT.md, or scattered over both halves.
pub fn good(rng: &mut Rng) -> Section {
    let (rotations, translations) = limits(rng);
    let written = joints_write(&rotations, &translations).section();
    if rng.one_in(2) {
        let n = rng.below(40);
        return Section { graphics: rng.bytes(n), ..Section::written(written) };
    }
    let lengths = [j::SIZE, j::ROTATION_LIMIT * rotations.len(), j::TRANSLATION_LIMIT * translations.len()];
    let mut places = Places::default();
    let parts = lengths.map(|length| places.add(length));
    let (system, graphics) = places.scatter(rng);
    let at = parts.map(|part| places.addresses[part]);
    let mut s = Section { system: rng.bytes(system), graphics: rng.bytes(graphics), root: at[0] };
    s.put(at[0], &units::joints(at[1], at[2], rotations.len() as u16, translations.len() as u16));
    let (rotation_bytes, translation_bytes) = written[j::SIZE..].split_at(lengths[1]);
    s.put(at[1], rotation_bytes);
    s.put(at[2], translation_bytes);
    s
}

/// The damaged section of a seed.
pub fn damaged(seed: u64) -> Case {
    let mut rng = Rng::new(seed);
    let mut section = good(&mut rng);
    let n = 1 + rng.below(6) / 3 + rng.below(6) / 5;
    let mut changes = Vec::new();
    for _ in 0..n {
        let (name, change) = rng.pick(&CHANGES);
        change(&mut section, &mut rng);
        changes.push(name);
    }
    Case { seed, changes, section }
}

const CHANGES: [Change; 17] = [
    ("pointer_to_graphics", |c, rng| set_pointer(c, rng, |c, rng| GRAPHICS_BASE + rng.below(c.graphics.len() + 2) as u64)),
    ("pointer_to_system", |c, rng| set_pointer(c, rng, |c, rng| SYSTEM_BASE + rng.below(c.system.len() + 2) as u64)),
    ("pointer_to_end", |c, rng| set_pointer(c, rng, |c, _| SYSTEM_BASE + c.system.len() as u64)),
    ("pointer_in_neither", |c, rng| set_pointer(c, rng, |_, rng| rng.pick(&NEITHER))),
    ("pointer_zero", |c, rng| set_pointer(c, rng, |_, _| 0)),
    ("pointer_to_root", |c, rng| set_pointer(c, rng, |c, _| c.root)),
    ("alias", |c, _| c.set_pointer(j::TRANSLATIONS, c.pointer(j::ROTATIONS))),
    ("alias_back", |c, _| c.set_pointer(j::ROTATIONS, c.pointer(j::TRANSLATIONS))),
    ("count_plus_one", |c, rng| set_count(c, rng, |v, _| v.wrapping_add(1))),
    ("count_minus_one", |c, rng| set_count(c, rng, |v, _| v.saturating_sub(1))),
    ("count_zero", |c, rng| set_count(c, rng, |_, _| 0)),
    ("count_greatest", |c, rng| set_count(c, rng, |_, _| 65_535)),
    ("count_any", |c, rng| set_count(c, rng, |_, rng| rng.next() as u16 >> rng.below(16))),
    ("flip_byte", |c, rng| flip_byte(c, rng)),
    ("cut_system", |c, rng| c.system.truncate(rng.below(c.system.len() + 1))),
    ("cut_graphics", |c, rng| c.graphics.truncate(rng.below(c.graphics.len() + 1))),
    ("root_elsewhere", |c, rng| c.root = root(c, rng)),
];

/// Addresses in neither half.
const NEITHER: [u64; 7] = [1, 0x4FFF_FFFF, 0x7000_0000, 0x1_5000_0000, 0xD000_0000, 1 << 63, u64::MAX];

fn set_pointer(c: &mut Section, rng: &mut Rng, to: impl FnOnce(&Section, &mut Rng) -> u64) {
    let to = to(c, rng);
    c.set_pointer(rng.pick(&[j::ROTATIONS, j::TRANSLATIONS]), to);
}

fn set_count(c: &mut Section, rng: &mut Rng, to: impl FnOnce(u16, &mut Rng) -> u16) {
    let field = rng.pick(&[j::ROTATION_COUNT, j::TRANSLATION_COUNT]);
    c.set_count(field, to(c.count(field), rng));
}

fn flip_byte(c: &mut Section, rng: &mut Rng) {
    let at = rng.below(c.system.len());
    if let Some(byte) = c.system.get_mut(at) {
        *byte ^= 1 + rng.below(255) as u8;
    }
}

fn root(c: &Section, rng: &mut Rng) -> u64 {
    match rng.below(5) {
        0 => 0,
        1 => rng.pick(&NEITHER),
        2 => GRAPHICS_BASE + rng.below(c.graphics.len() + 2) as u64,
        3 => SYSTEM_BASE + c.system.len() as u64,
        _ => SYSTEM_BASE + rng.below(c.system.len() + 2) as u64,
    }
}
