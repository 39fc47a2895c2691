//! Rigs: deriving against the format's definitions, writing and reading back, joints and names.

use crate::model;
use crate::share::share;
use cases::limits::{rotation_limit, translation_limit};
use cases::rigs::{rig, rig_of};
use cases::{good, Rng, Section};
use oracle::{
    build_bone_tags, build_indices, build_transformations, check, joints_read, joints_write, rage_joaat, read, write, Answer,
    Bone, JointsAnswer, RotationLimit, TranslationLimit, Verdict, COLUMN4, SYSTEM_BASE,
};

/// Chains and children of random rigs equal the definitions; column 4 is as docs/FORMAT.md says.
pub fn derive(seed: u64, rigs: u64, threads: u64) -> Result<u64, String> {
    let random = |seed| derive_one(&rig(&mut Rng::new(seed))).map_err(|e| format!("deriving, seed {seed}: {e}"));
    share(seed, rigs, threads, |_, seed| random(seed))?;
    // duplicates: the published child list takes memory with the square of the count
    derive_one(&rig_of(&mut Rng::new(seed), 1_500)).map_err(|e| format!("deriving 1,500 bones, seed {seed}: {e}"))?;
    for n in [65_534, 65_535] {
        let bones = shallow(&mut Rng::new(seed), n);
        if build_bone_tags(&bones) != model::chains(&bones) {
            return Err(format!("chains of {n} bones, seed {seed}"));
        }
        column4(&bones).map_err(|e| format!("matrices of {n} bones, seed {seed}: {e}"))?;
    }
    Ok(rigs + 3)
}

fn derive_one(bones: &[Bone]) -> Result<(), String> {
    if build_bone_tags(bones) != model::chains(bones) {
        return Err("chains".into());
    }
    let (parents, children) = build_indices(bones);
    if parents.iter().ne(bones.iter().map(|b| &b.parent)) {
        return Err("parents".into());
    }
    if children != model::children(bones, 4 * (bones.len() + 1)) {
        return Err("children".into());
    }
    column4(bones)
}

fn column4(bones: &[Bone]) -> Result<(), String> {
    let (local, inverse) = build_transformations(bones);
    let column = |m: &[u32; 16]| COLUMN4.map(|i| m[i]);
    let kept = local.iter().zip(bones).all(|(m, b)| column(m) == b.kept);
    if kept && inverse.iter().all(|m| column(m) == [0; 4]) {
        Ok(())
    } else {
        Err("column 4".into())
    }
}

/// `n` bones, each on one of the first 16, so that every walk is short.
fn shallow(rng: &mut Rng, n: usize) -> Vec<Bone> {
    let drawn = rig_of(rng, 1_000);
    (0..n)
        .map(|i| {
            let parent = if i < 16 { i as i16 - 1 } else { rng.below(16) as i16 };
            Bone { parent, tag: rng.next() as u16, ..drawn[i % drawn.len()].clone() }
        })
        .collect()
}

/// What is written is accepted and reads back bit for bit, whatever the graphics half holds.
pub fn write_and_read_back(seed: u64, rigs: u64, threads: u64) -> Result<u64, String> {
    share(seed, rigs, threads, |_, seed| {
        let mut rng = Rng::new(seed);
        let bones = rig(&mut rng);
        let free = std::array::from_fn(|_| rng.next() as u32);
        let (system, graphics) = (write(&bones, free).section(), rng.bytes(50));
        if system.len() % 16 != 0 || check(&system, &graphics, SYSTEM_BASE) != Verdict::Accepted(bones.len()) {
            return Err(format!("a written section is not accepted, seed {seed}"));
        }
        let Answer::Read(r) = read(&system, &graphics, SYSTEM_BASE) else {
            return Err(format!("a written section does not read, seed {seed}"));
        };
        if r.free != free || r.bones.unwrap_or_default() != bones {
            return Err(format!("a written section reads back otherwise, seed {seed}"));
        }
        Ok(())
    })?;
    Ok(rigs)
}

/// Good sections scattered over both halves are accepted and read back the same bones.
pub fn scattered(seed: u64, rigs: u64, threads: u64) -> Result<u64, String> {
    share(seed, rigs, threads, |_, seed| {
        let (bones, Section { system, graphics, root }) = good(&mut Rng::new(seed));
        let Answer::Read(r) = read(&system, &graphics, root) else {
            return Err(format!("a good section does not read, seed {seed}"));
        };
        if r.bones.as_deref().unwrap_or(&[]) != bones || oracle::check_reading(&r) != Verdict::Accepted(bones.len()) {
            return Err(format!("a good section is not accepted, seed {seed}"));
        }
        Ok(())
    })?;
    Ok(rigs)
}

/// Limits are written and read back; every truncation reads or gives 11.
pub fn joints(seed: u64, lists: u64) -> Result<u64, String> {
    for seed in seed..seed + lists {
        let mut rng = Rng::new(seed);
        let rotations: Vec<RotationLimit> = (0..rng.below(4)).map(|_| rotation_limit(&mut rng)).collect();
        let translations: Vec<TranslationLimit> = (0..rng.below(4)).map(|_| translation_limit(&mut rng)).collect();
        let system = joints_write(&rotations, &translations).section();
        let JointsAnswer::Read(j) = joints_read(&system, &[], SYSTEM_BASE) else {
            return Err(format!("written joints do not read, seed {seed}"));
        };
        let rotations: Vec<_> = rotations.iter().map(stored_rotation).collect();
        let translations: Vec<_> = translations.iter().map(stored_translation).collect();
        if j.rotations.unwrap_or_default() != rotations || j.translations.unwrap_or_default() != translations {
            return Err(format!("written joints read back otherwise, seed {seed}"));
        }
        for length in 0..system.len() {
            let answer = joints_read(&system[..length], &[], SYSTEM_BASE);
            let enough = system.len() == 64 && length >= 52;
            if matches!(answer, JointsAnswer::Read(_)) != enough || !enough && answer != JointsAnswer::Refused(11) {
                return Err(format!("joints cut at {length}, seed {seed}: {answer:?}"));
            }
        }
    }
    Ok(lists)
}

/// Reading keeps each stored slot in `other`, those of the named fields too.
fn stored_rotation(l: &RotationLimit) -> RotationLimit {
    let mut other = l.other;
    other[2] = l.id as u32 | (l.second as u32) << 16;
    other[23..26].copy_from_slice(&l.min);
    other[26..29].copy_from_slice(&l.max);
    RotationLimit { other, ..*l }
}

fn stored_translation(l: &TranslationLimit) -> TranslationLimit {
    let mut other = l.other;
    other[2] = l.id;
    other[8..11].copy_from_slice(&l.min);
    other[12..15].copy_from_slice(&l.max);
    TranslationLimit { other, ..*l }
}

/// The published hash equals the format's on random strings.
pub fn hash(seed: u64, names: u64) -> Result<u64, String> {
    let mut rng = Rng::new(seed);
    for _ in 0..names {
        let n = rng.below(40);
        let name: String = (0..n).filter_map(|_| char::from_u32(rng.below(0x800) as u32)).collect();
        if rage_joaat(&name) != model::joaat(name.as_bytes()) {
            return Err(format!("the hash of {name:?}"));
        }
    }
    Ok(names)
}
