//! `Joints` and the two limits on plain words (docs/FORMAT.md, "Joints and names").

use crate::bone::{vec3, vec3_words};
use crate::refusal::number;
use crate::write::{Placed, Written};
use rage_formats::blocks::base::StructArray;
use rage_formats::blocks::skeleton::{self, JointRotationLimit, JointTranslationLimit};
use rage_formats::blocks::{ydr, Graph, Pod, Writer};

/// A rotation limit; `other` has a word for each of its 48 slots.
#[derive(Clone, Copy, Debug, PartialEq, Eq)]
pub struct RotationLimit {
    pub id: u16,
    pub second: u16,
    pub min: [u32; 3],
    pub max: [u32; 3],
    pub other: [u32; 48],
}

/// A translation limit; `other` has a word for each of its 16 slots.
#[derive(Clone, Copy, Debug, PartialEq, Eq)]
pub struct TranslationLimit {
    pub id: u32,
    pub min: [u32; 3],
    pub max: [u32; 3],
    pub other: [u32; 16],
}

/// Joints as read; a list that is `None` has the pointer 0.
#[derive(Clone, Debug, PartialEq, Eq)]
pub struct Joints {
    pub kind: u32,
    pub rotation_count: u16,
    pub translation_count: u16,
    pub rotations: Option<Vec<RotationLimit>>,
    pub translations: Option<Vec<TranslationLimit>>,
    /// Distinct addresses pooled.
    pub pool: usize,
}

/// What reading joints gives.
#[derive(Clone, Debug, PartialEq, Eq)]
pub enum JointsAnswer {
    None,
    Refused(u8),
    Read(Box<Joints>),
}

/// Reads the joints at `root` with a fresh pool.
pub fn joints_read(system: &[u8], graphics: &[u8], root: u64) -> JointsAnswer {
    let mut r = ydr::reader(system, graphics);
    let mut g = Graph::new();
    let id = match skeleton::Joints::read(&mut r, &mut g, root) {
        Err(e) => return JointsAnswer::Refused(number(&e.to_string())),
        Ok(None) => return JointsAnswer::None,
        Ok(Some(id)) => id,
    };
    let j = g.get::<skeleton::Joints>(id);
    JointsAnswer::Read(Box::new(Joints {
        kind: j.vft,
        rotation_count: j.rot_count,
        translation_count: j.trans_count,
        rotations: j.rotation_limits.map(|l| g.get::<StructArray<_>>(l).items.iter().map(plain_rotation).collect()),
        translations: j.translation_limits.map(|l| g.get::<StructArray<_>>(l).items.iter().map(plain_translation).collect()),
        pool: ydr::pool_rows(&r),
    }))
}

/// Lays joints, rotation limits and translation limits from 50000000 hex. Refuses with 6.
pub fn joints_write(rotations: &[RotationLimit], translations: &[TranslationLimit]) -> Written {
    let (g, placed) = placed_limits(rotations, translations);
    placed.write(&g)
}

/// The blocks in their places.
pub(crate) fn placed_limits(rotations: &[RotationLimit], translations: &[TranslationLimit]) -> (Graph, Placed) {
    let mut g = Graph::new();
    let rotations = rotations.iter().map(published_rotation).collect();
    let translations = translations.iter().map(published_translation).collect();
    let root = skeleton::Joints::from_limits(&mut g, rotations, translations);
    let &skeleton::Joints { rotation_limits, translation_limits, .. } = g.get(root);
    let placed = Placed::of(&mut g, [Some(root), rotation_limits, translation_limits]);
    (g, placed)
}

/// `JointRotationLimit::default()`.
pub fn fresh_rotation_limit() -> RotationLimit {
    plain_rotation(&JointRotationLimit::default())
}

/// `JointRotationLimit::read` of a record.
pub fn rotation_limit_read(record: &[u8]) -> RotationLimit {
    plain_rotation(&JointRotationLimit::read(record))
}

/// `JointRotationLimit::write`: the record.
pub fn rotation_limit_write(l: &RotationLimit) -> Vec<u8> {
    record(&published_rotation(l))
}

/// `JointTranslationLimit::read` of a record.
pub fn translation_limit_read(record: &[u8]) -> TranslationLimit {
    plain_translation(&JointTranslationLimit::read(record))
}

/// `JointTranslationLimit::write`: the record.
pub fn translation_limit_write(l: &TranslationLimit) -> Vec<u8> {
    record(&published_translation(l))
}

fn record(limit: &impl Pod) -> Vec<u8> {
    let mut w = Writer::new(0, 0);
    limit.write(&mut w);
    w.into_inner()
}

fn plain_rotation(l: &JointRotationLimit) -> RotationLimit {
    RotationLimit { id: l.bone_id, second: l.unknown_a, min: vec3_words(l.min), max: vec3_words(l.max), other: l.other }
}

pub(crate) fn published_rotation(l: &RotationLimit) -> JointRotationLimit {
    JointRotationLimit { bone_id: l.id, unknown_a: l.second, min: vec3(l.min), max: vec3(l.max), other: l.other }
}

fn plain_translation(l: &JointTranslationLimit) -> TranslationLimit {
    TranslationLimit { id: l.bone_id, min: vec3_words(l.min), max: vec3_words(l.max), other: l.other }
}

pub(crate) fn published_translation(l: &TranslationLimit) -> JointTranslationLimit {
    JointTranslationLimit { bone_id: l.id, min: vec3(l.min), max: vec3(l.max), other: l.other }
}
