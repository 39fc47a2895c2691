//! Joints, single limits and the hash.

use crate::rigs::{thousands, COUNTS, SEED};
use crate::timing::{timed, Row, Table};
use cases::limits::{rotation_limit, translation_limit};
use cases::records::joints as j;
use cases::{rows, Rng};
use link::{Hash, Joints, DONE};
use oracle::{
    joints_write, rage_joaat, PreparedBlocks, PreparedLimits, PreparedSection, RotationLimit, TranslationLimit, SYSTEM_BASE,
};

/// Reading and writing of limits of each kind, in lists, and of fewer in a call each.
pub fn joints(table: &Table, library: &dyn Joints) {
    let mut rng = Rng::new(SEED);
    for n in COUNTS {
        let rotations: Vec<RotationLimit> = (0..n).map(|_| rotation_limit(&mut rng)).collect();
        let translations: Vec<TranslationLimit> = (0..n).map(|_| translation_limit(&mut rng)).collect();
        one_kind(table, library, &format!("{} rotation limits", thousands(n)), &rotations, &[]);
        one_kind(table, library, &format!("{} translation limits", thousands(n)), &[], &translations);
        if n <= 1_000 {
            rotation_calls(table, library, &rotations);
            translation_calls(table, library, &translations);
        }
    }
}

/// A call for each rotation limit, against `Pod::read` and `Pod::write` of each.
fn rotation_calls(table: &Table, library: &dyn Joints, limits: &[RotationLimit]) {
    let prepared = PreparedLimits::of_rotations(limits);
    let records: Vec<[u8; j::ROTATION_LIMIT]> = arrays(prepared.records());
    let mut limit_rows: Vec<[u32; rows::ROTATION]> = limits.iter().map(rows::rotation).collect();
    let mut out = vec![1; prepared.records().len()];
    let input = format!("{} rotation limits", thousands(limits.len()));
    let row = |call| Row { call, input: &input, units: limits.len(), unit: "a limit" };
    let ours = || {
        let calls = limit_rows.iter().zip(out.chunks_exact_mut(j::ROTATION_LIMIT));
        timed(|| calls.for_each(|(row, out)| assert_eq!(library.rotation_limit_write(row, out), DONE)))
    };
    table.both(&row("limit write, a call each"), ours, || timed(|| prepared.write()));
    let ours =
        || timed(|| records.iter().zip(&mut limit_rows).for_each(|(record, row)| library.rotation_limit_read(record, row)));
    table.both(&row("limit read, a call each"), ours, || timed(|| prepared.read()));
}

/// The same of translation limits.
fn translation_calls(table: &Table, library: &dyn Joints, limits: &[TranslationLimit]) {
    let prepared = PreparedLimits::of_translations(limits);
    let records: Vec<[u8; j::TRANSLATION_LIMIT]> = arrays(prepared.records());
    let mut limit_rows: Vec<[u32; rows::TRANSLATION]> = limits.iter().map(rows::translation).collect();
    let mut out = vec![1; prepared.records().len()];
    let input = format!("{} translation limits", thousands(limits.len()));
    let row = |call| Row { call, input: &input, units: limits.len(), unit: "a limit" };
    let ours = || {
        let calls = limit_rows.iter().zip(out.chunks_exact_mut(j::TRANSLATION_LIMIT));
        timed(|| calls.for_each(|(row, out)| assert_eq!(library.translation_limit_write(row, out), DONE)))
    };
    table.both(&row("limit write, a call each"), ours, || timed(|| prepared.write()));
    let ours =
        || timed(|| records.iter().zip(&mut limit_rows).for_each(|(record, row)| library.translation_limit_read(record, row)));
    table.both(&row("limit read, a call each"), ours, || timed(|| prepared.read()));
}

/// The records as arrays.
fn arrays<const N: usize>(bytes: &[u8]) -> Vec<[u8; N]> {
    bytes.chunks_exact(N).map(|record| record.try_into().expect("a record")).collect()
}

fn one_kind(table: &Table, library: &dyn Joints, input: &str, rotations: &[RotationLimit], translations: &[TranslationLimit]) {
    let (r, t) = (rotations.len(), translations.len());
    let mut rotation: Vec<u32> = rotations.iter().flat_map(rows::rotation).collect();
    let mut translation: Vec<u32> = translations.iter().flat_map(rows::translation).collect();
    let section = joints_write(rotations, translations).section();
    let row = |call| Row { call, input, units: r + t, unit: "a limit" };
    let (mut out, mut count, mut fields) = (vec![1; section.len()], 0, [0; 7]);
    let prepared = PreparedBlocks::of_limits(rotations, translations);
    let ours = || timed(|| assert_eq!(library.joints_write(&rotation, r, &translation, t, &mut out, &mut count), DONE));
    table.both(&row("joints write"), ours, || timed(|| prepared.write()));
    let ours = || {
        let (r, t) = (&mut rotation, &mut translation);
        timed(|| assert_eq!(library.joints_read(&section, &[], SYSTEM_BASE, r, t, &mut fields), DONE))
    };
    let rust = || {
        let prepared = PreparedSection::new(&section);
        timed(|| prepared.joints_read(SYSTEM_BASE))
    };
    table.both(&row("joints read"), ours, rust);
}

/// 1,000 names of 4 to 20 letters, and one long string.
pub fn hash(table: &Table, library: &dyn Hash) {
    let mut rng = Rng::new(SEED);
    let mut letters = |n: usize| (0..n).map(|_| (b'a' + rng.below(26) as u8) as char).collect::<String>();
    let names: Vec<String> = (0..1_000).map(|i| letters(4 + i % 17)).collect();
    let long = vec![letters(65_536)];
    for (input, names) in [("1,000 names of 4 to 20 bytes", names), ("one string of 65,536 bytes", long)] {
        let row = Row { call: "hash", input, units: names.iter().map(String::len).sum(), unit: "a byte" };
        let ours = |n: &String| library.rage_joaat(n.as_bytes());
        let all = |hash: &dyn Fn(&String) -> u32| timed(|| names.iter().fold(0, |sum, n| sum ^ hash(n)));
        table.both(&row, || all(&ours), || all(&|n| rage_joaat(n)));
    }
}
