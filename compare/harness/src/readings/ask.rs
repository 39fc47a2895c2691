//! Short forms of the oracle. Each asks our library too, where it has the export, and asserts that both answer alike.

use crate::checks::check::CheckInput;
use crate::derived::input::{Call, DeriveInput};
use crate::joints::limit::{self, Kind, RecordInput, RowInput};
use crate::skeletons::read::{Asked, ReadInput};
use crate::skeletons::write::WriteInput;
use crate::{checks, derived, joints, skeletons};
use cases::{names, rows, Rng, Section};
use oracle::{Answer, Bone, Chains, JointsAnswer, Matrix, Reading, RotationLimit, TranslationLimit, Verdict, Written};

/// The seed of what lent tables hold at entry.
const DIRT: u64 = 1;

/// Asserts that our library, if it is there, answers as it must.
fn beside<L: ?Sized, A: PartialEq>(library: Option<&L>, ours: impl FnOnce(&L) -> A, wanted: impl FnOnce() -> A) {
    if let Some(library) = library {
        assert!(ours(library) == wanted(), "our library answers otherwise");
    }
}

// ---- reading a skeleton

pub fn read(s: &Section) -> Answer {
    let (exact, asked) = ReadInput::exact(s.clone(), DIRT);
    status(&exact, &asked);
    asked.answer
}

/// The status of reading in the tables lent.
pub fn status(input: &ReadInput, asked: &Asked) -> u32 {
    let wanted = || asked.lent(&input.lengths);
    beside(link::skeletons(), |l| skeletons::read::ours(l, input), wanted);
    wanted().status
}

/// The refusal's number, 0 for a section that reads.
pub fn refusal(s: &Section) -> u8 {
    match read(s) {
        Answer::Refused(n) => n,
        Answer::Read(_) => 0,
        Answer::None => panic!("the root is 0"),
    }
}

pub fn reading(s: &Section) -> Reading {
    match read(s) {
        Answer::Read(r) => *r,
        other => panic!("not read: {other:?}"),
    }
}

pub fn bones(s: &Section) -> Vec<Bone> {
    reading(s).bones.expect("bones stand")
}

pub fn check(s: &Section) -> Verdict {
    read(s);
    let (exact, judged) = CheckInput::exact(s.clone(), DIRT);
    beside(link::checks(), |l| checks::check::ours(l, &exact), || judged.lent(&exact));
    oracle::check(&s.system, &s.graphics, s.root)
}

/// The section with its system half cut at `length`.
pub fn cut(s: &Section, length: usize) -> Section {
    let mut c = s.clone();
    c.system.truncate(length);
    c
}

// ---- deriving and writing

fn derive(call: Call, bones: &[Bone]) {
    let table = rows::bones(&mut Rng::new(DIRT), bones);
    derive_status(&DeriveInput { call, bones: table, n: bones.len(), room: [0; 3], dirt: DIRT });
}

/// The status of deriving in the tables lent.
pub fn derive_status(input: &DeriveInput) -> u32 {
    beside(link::derive(), |l| derived::ours(l, input), || derived::rust(input));
    input.status()
}

pub fn build_bone_tags(bones: &[Bone]) -> Chains {
    derive(Call::Tags, bones);
    oracle::build_bone_tags(bones)
}

pub fn build_indices(bones: &[Bone]) -> (Vec<i16>, Vec<i16>) {
    derive(Call::Indices, bones);
    oracle::build_indices(bones)
}

pub fn build_transformations(bones: &[Bone]) -> (Vec<Matrix>, Vec<Matrix>) {
    derive(Call::Matrices, bones);
    oracle::build_transformations(bones)
}

pub fn num_hash_buckets(n: usize) -> usize {
    beside(link::derive(), |l| l.num_hash_buckets(n), || oracle::num_hash_buckets(n));
    oracle::num_hash_buckets(n)
}

pub fn write(bones: &[Bone]) -> Written {
    let (half, places) = names::packed(bones);
    let table = rows::placed_bones(bones, &places);
    let (input, section) = WriteInput::exact(table, bones.len(), [half, Vec::new()], [0; 4], DIRT);
    beside(link::skeletons(), |l| skeletons::write::ours(l, &input), || input.lent(&section));
    match section {
        Ok(section) => Written::Section(section),
        Err(number) => Written::Refused(number as u8),
    }
}

/// The status of writing with what is lent.
pub fn write_status(input: &WriteInput) -> u32 {
    let wanted = || skeletons::write::rust(input);
    beside(link::skeletons(), |l| skeletons::write::ours(l, input), wanted);
    wanted().status
}

// ---- joints and names

pub fn joints_read(s: &Section) -> JointsAnswer {
    let answer = oracle::joints_read(&s.system, &s.graphics, s.root);
    let (r, t) = match &answer {
        JointsAnswer::Read(j) => (j.rotations.as_ref().map_or(0, Vec::len), j.translations.as_ref().map_or(0, Vec::len)),
        _ => (0, 0),
    };
    let (rotation, translation) = (rows::ROTATION * r, rows::TRANSLATION * t);
    let input = joints::read::ReadInput { section: s.clone(), rotation, translation, dirt: DIRT };
    beside(link::joints(), |l| joints::read::ours(l, &input), || joints::read::rust(&input));
    answer
}

pub fn joints_refusal(s: &Section) -> u8 {
    match joints_read(s) {
        JointsAnswer::Refused(n) => n,
        JointsAnswer::Read(_) => 0,
        JointsAnswer::None => panic!("the root is 0"),
    }
}

pub fn joints_write(rotations: &[RotationLimit], translations: &[TranslationLimit]) -> Written {
    let written = oracle::joints_write(rotations, translations);
    let input = joints::write::WriteInput {
        rotation: rotations.iter().flat_map(rows::rotation).collect(),
        r: rotations.len(),
        translation: translations.iter().flat_map(rows::translation).collect(),
        t: translations.len(),
        out: if let Written::Section(bytes) = &written { bytes.len() } else { 0 },
        dirt: DIRT,
    };
    joints_status(&input);
    written
}

/// The status of writing joints with what is lent.
pub fn joints_status(input: &joints::write::WriteInput) -> u32 {
    let wanted = || joints::write::rust(input);
    beside(link::joints(), |l| joints::write::ours(l, input), wanted);
    wanted().status
}

/// The row of a record.
pub fn limit_read(kind: Kind, record: &[u8]) -> Vec<u32> {
    let input = RecordInput { kind, record: record.to_vec(), dirt: DIRT };
    beside(link::joints(), |l| limit::read(l, &input), || limit::rust_read(&input));
    kind.row(record)
}

/// The status of writing a row into so many bytes, and these.
pub fn limit_write(kind: Kind, row: &[u32], out: usize) -> (u32, Vec<u8>) {
    let input = RowInput { kind, row: row.to_vec(), out, dirt: DIRT };
    beside(link::joints(), |l| limit::write(l, &input), || limit::rust_write(&input));
    let written = limit::rust_write(&input);
    (written.status, written.out)
}

pub fn fresh_rotation_limit() -> RotationLimit {
    let (fresh, mut row) = (oracle::fresh_rotation_limit(), [1; rows::ROTATION]);
    beside(link::joints(), |l| (l.fresh_rotation_limit(&mut row), row).1, || rows::rotation(&fresh));
    fresh
}

pub fn rage_joaat(name: &str) -> u32 {
    beside(link::hash(), |l| l.rage_joaat(name.as_bytes()), || oracle::rage_joaat(name));
    oracle::rage_joaat(name)
}
