//! Stored joints: sections read, lists written, and the fresh limit.

use super::case::{numbers, words, Operation, Run, Stored};
use crate::joints::write::{rust, WriteInput};
use cases::joints::{damaged, limits};
use cases::limits::{rotation_limit, translation_limit};
use cases::{rows, units, Rng, Section};
use link::{DONE, NONE};
use oracle::{fresh_rotation_limit, joints_read, joints_write, Joints, JointsAnswer, SYSTEM_BASE};

/// The last seed; seeds rise from 101, and those up to the last must give enough cases.
const LAST: u32 = 20_000;

/// An answer of reading, how many cases of it are stored, and the most bytes.
const WANTED: [(u32, usize, usize); 4] = [(DONE, 30, 1_600), (NONE, 4, 900), (10, 15, 700), (11, 20, 700)];

/// The seeds of lists that are written.
const WRITTEN: std::ops::Range<u32> = 101..121;

/// The words of each table that `replay` lends, and the bytes of its buffer: 13 rotation limits, 42 translation limits.
const TABLE: usize = 672;
pub const BUFFER: usize = 2_048;
const LISTS_TOO_LONG: [(u16, u16); 3] = [(14, 0), (0, 43), (14, 43)];

/// The ids of rotation limits and of translation limits, whose rows are else drawn, and behind which the tables are zero; how many
/// are asked for, and the answer.
type Asked = (&'static [u32], &'static [u32], [u64; 2], u32);

const WRITES: [Asked; 28] = [
    (&[], &[], [65_536, 0], TOO_MANY_LIMITS),
    (&[], &[], [0, 65_536], TOO_MANY_LIMITS),
    (&[], &[], [u64::MAX, u64::MAX], TOO_MANY_LIMITS),
    (&[], &[], [14, 65_536], TOO_MANY_LIMITS),
    (&[], &[], [14, 0], TABLE_TOO_SHORT),
    (&[], &[], [0, 43], TABLE_TOO_SHORT),
    (&[], &[], [65_535, 65_535], TABLE_TOO_SHORT),
    (&[], &[], [11, 0], BUFFER_TOO_SHORT),
    (&[], &[], [10, 2], BUFFER_TOO_SHORT),
    (&[65_535], &[], [1, 0], DONE),
    (&[65_536], &[], [1, 0], BAD_LIMIT_ID),
    (&[u32::MAX], &[], [1, 0], BAD_LIMIT_ID),
    (&[65_536, 0, 1], &[], [3, 0], BAD_LIMIT_ID),
    (&[0, 65_536, 1], &[], [3, 0], BAD_LIMIT_ID),
    (&[0, 1, 65_536], &[], [3, 0], BAD_LIMIT_ID),
    (&[0, 65_536], &[], [1, 0], DONE),
    (&[65_536], &[], [0, 0], DONE),
    (&[], &[65_536, u32::MAX], [0, 2], DONE),
    (&[65_536], &[65_536], [65_536, 0], TOO_MANY_LIMITS),
    (&[65_536], &[65_536], [1, 65_536], TOO_MANY_LIMITS),
    (&[65_536], &[65_536], [14, 0], TABLE_TOO_SHORT),
    (&[65_536], &[65_536], [1, 43], TABLE_TOO_SHORT),
    (&[65_536], &[], [11, 0], BAD_LIMIT_ID),
    (&[65_535], &[], [11, 0], BUFFER_TOO_SHORT),
    (&[65_536], &[], [1, 28], BAD_LIMIT_ID),
    (&[65_536], &[], [1, 29], BAD_LIMIT_ID),
    (&[65_535], &[], [1, 28], DONE),
    (&[65_535], &[], [1, 29], BUFFER_TOO_SHORT),
];

const TABLE_TOO_SHORT: u32 = 1;
const BUFFER_TOO_SHORT: u32 = 5;
const TOO_MANY_LIMITS: u32 = 6;
const BAD_LIMIT_ID: u32 = 35;

pub fn cases() -> Result<Vec<Stored>, String> {
    let mut out = sections()?;
    out.extend((1..).zip(LISTS_TOO_LONG).map(|(number, (r, t))| too_long(number, r, t)));
    out.extend(WRITTEN.map(written));
    out.extend((1..).zip(WRITES).map(|(number, asked)| by_hand(number, asked)));
    let runs = vec![Run::longer(Operation::FreshLimit, DONE)];
    out.push(Stored { number: 1, runs, call: [0, 0], parts: vec![words(&rows::rotation(&fresh_rotation_limit()))] });
    Ok(out)
}

fn sections() -> Result<Vec<Stored>, String> {
    let mut wanted = WANTED;
    let mut out = Vec::new();
    let mut seed = 101;
    while let Some((status, n, _)) = wanted.iter().find(|w| w.1 > 0) {
        if seed > LAST {
            return Err(format!("{n} joints more of {status} are wanted than seeds to {LAST} give"));
        }
        let (status, case) = section(seed, damaged(seed as u64).section);
        seed += 1;
        if let Some(w) = wanted.iter_mut().find(|w| w.0 == status && w.1 > 0 && case.bytes().len() <= w.2) {
            w.1 -= 1;
            out.push(case);
        }
    }
    Ok(out)
}

/// The Rust's answer to a section and the case.
fn section(number: u32, s: Section) -> (u32, Stored) {
    let (status, rows) = match joints_read(&s.system, &s.graphics, s.root) {
        JointsAnswer::None => (NONE, refused(NONE)),
        JointsAnswer::Refused(n) => (n as u32, refused(n as u32)),
        JointsAnswer::Read(joints) => (DONE, reading(&joints)),
    };
    let parts = [vec![s.system, s.graphics], rows].concat();
    (status, Stored { number, runs: vec![Run::longer(Operation::JointsRead, status)], call: [s.root, 0], parts })
}

/// The answer alone.
fn refused(number: u32) -> Vec<Vec<u8>> {
    vec![numbers(&[number as u64])]
}

/// The answer with the fields, and the rows of both lists.
fn reading(j: &Joints) -> Vec<Vec<u8>> {
    let rotation: Vec<u32> = j.rotations.iter().flatten().flat_map(rows::rotation).collect();
    let translation: Vec<u32> = j.translations.iter().flatten().flat_map(rows::translation).collect();
    let stands = [j.rotations.is_some(), j.translations.is_some()].map(u64::from);
    let [r, t] = [rotation.len() / rows::ROTATION, translation.len() / rows::TRANSLATION].map(|n| n as u64);
    let counts = [j.rotation_count, j.translation_count].map(u64::from);
    let fields = [DONE as u64, j.kind as u64, counts[0], counts[1], stands[0], r, stands[1], t];
    vec![numbers(&fields), words(&rotation), words(&translation)]
}

/// A section that the Rust reads and whose lists do not fit the tables.
fn too_long(number: u32, r: u16, t: u16) -> Stored {
    let behind = SYSTEM_BASE + 64;
    let system = [units::joints(behind, behind + 192 * r as u64, r, t), vec![7; 192 * r as usize + 64 * t as usize]].concat();
    let (status, mut case) = section(number, Section::written(system));
    assert_eq!(status, DONE, "a section that the Rust reads");
    case.runs = vec![Run::longer(Operation::JointsRead, TABLE_TOO_SHORT)];
    case.parts.truncate(2);
    case.parts.extend(refused(TABLE_TOO_SHORT));
    case
}

/// Rows with these ids, written or refused.
fn by_hand(number: u32, (rotations, translations, call, answer): Asked) -> Stored {
    let rng = &mut Rng::new(number as u64);
    let with_id = |row: &[u32], id: u32| [&[id], &row[1..]].concat();
    let rotation: Vec<u32> = rotations.iter().flat_map(|&id| with_id(&rows::rotation(&rotation_limit(rng)), id)).collect();
    let translation: Vec<u32> =
        translations.iter().flat_map(|&id| with_id(&rows::translation(&translation_limit(rng)), id)).collect();
    let table = |words: &[u32]| [words, &vec![0; TABLE - words.len()]].concat();
    let [r, t] = call.map(|n| n as usize);
    let (lent_rotation, lent_translation) = (table(&rotation), table(&translation));
    let written = rust(&WriteInput { rotation: lent_rotation, r, translation: lent_translation, t, out: BUFFER, dirt: 0 });
    assert_eq!(written.status, answer, "joints write {number}");
    let parts = vec![words(&rotation), words(&translation), written.out[..written.count].to_vec()];
    Stored { number, runs: vec![Run::longer(Operation::JointsWrite, answer)], call, parts }
}

/// The lists of a seed, written.
fn written(seed: u32) -> Stored {
    let (rotations, translations) = limits(&mut Rng::new(seed as u64));
    let section = joints_write(&rotations, &translations).section();
    let rotation: Vec<u32> = rotations.iter().flat_map(rows::rotation).collect();
    let translation: Vec<u32> = translations.iter().flat_map(rows::translation).collect();
    Stored {
        number: seed,
        runs: vec![Run::longer(Operation::JointsWrite, DONE)],
        call: [rotations.len() as u64, translations.len() as u64],
        parts: vec![words(&rotation), words(&translation), section],
    }
}
