//! Stored readings: damaged sections with the answers of reading, check and lookup.

use super::case::{halves, numbers, words, Operation, Run, Stored, FULL};
use crate::skeletons::read::fields;
use cases::{damaged, tables, Rng, Section};
use link::{DONE, NONE};
use oracle::{check_reading, lookup, read_rows, Answer, Found, Reading, Verdict};

/// The last seed; seeds rise from 1, and those up to the last must give enough cases.
const LAST: u32 = 200_000;

/// A kind of case, how many of them are stored, and the most bytes: longer ones are passed over, so that the file stays
/// small. The kind is the check's answer, with `2+` where two or more bones were read.
const WANTED: [(&str, usize, usize); 13] = [
    ("none", 6, 700),
    ("10", 30, 700),
    ("11", 30, 700),
    ("12", 30, 1_000),
    ("13", 15, 700),
    ("21", 25, 1_400),
    ("22", 12, 1_400),
    ("23", 12, 1_400),
    ("24", 12, 1_400),
    ("25", 12, 1_400),
    ("ok", 15, 1_400),
    ("21 2+", 10, 3_000),
    ("ok 2+", 12, 3_000),
];

pub fn cases() -> Result<Vec<Stored>, String> {
    let mut wanted = WANTED;
    let mut out = Vec::new();
    let mut seed = 1;
    while let Some((kind, n, _)) = wanted.iter().find(|w| w.1 > 0) {
        if seed > LAST {
            return Err(format!("{n} cases more of {kind} are wanted than seeds to {LAST} give"));
        }
        let (kind, case) = one(seed);
        seed += 1;
        if let Some(w) = wanted.iter_mut().find(|w| w.0 == kind && w.1 > 0 && case.bytes().len() <= w.2) {
            w.1 -= 1;
            out.push(case);
        }
    }
    Ok(out)
}

/// The kind and the case of a seed.
fn one(seed: u32) -> (String, Stored) {
    let Section { system, graphics, root } = damaged(seed as u64).section;
    let (answer, used) = read_rows(&system, &graphics, root);
    let (status, verdict, rows) = match &answer {
        Answer::None => (NONE, Verdict::None, Vec::new()),
        Answer::Refused(n) => (*n as u32, Verdict::Refused(*n), Vec::new()),
        Answer::Read(r) => (DONE, check_reading(r), rows(r)),
    };
    let kind = match verdict {
        Verdict::None => "none".into(),
        Verdict::Accepted(_) => "ok".into(),
        Verdict::Refused(n) => n.to_string(),
    };
    let kind = if rows.is_empty() || used.bones < 2 { kind } else { kind + " 2+" };
    let tag = tag(seed, &answer);
    let found = lookup(&system, &graphics, root, tag as u32);
    let lengths = tables::exact(&used);
    let runs = [read_runs(status, &lengths), vec![Run::longer(Operation::Lookup, found_status(found))]].concat();
    let lengths = words(&lengths.map(|l| l as u32));
    let parts = [vec![lengths, others(verdict, tag, found), system, graphics], rows].concat();
    (kind, Stored { number: seed, runs, call: [root, 0], parts })
}

/// A tag to look up: of every other section that is read the last entry's, else drawn.
fn tag(seed: u32, answer: &Answer) -> u16 {
    let last = match answer {
        Answer::Read(r) if seed % 2 == 0 => r.entries.last().and_then(|e| e.tag.try_into().ok()),
        _ => None,
    };
    last.unwrap_or(Rng::new(seed as u64).below(48) as u16)
}

/// A reading is run with tables longer than it uses, with tables of just the words that it uses, up to its refusal if it is
/// refused, and with each table that it uses one word short.
fn read_runs(status: u32, lengths: &[usize]) -> Vec<Run> {
    const TABLE_TOO_SHORT: u32 = 1;
    let full = Run { operation: Operation::ReadFull, tables: FULL, answer: status };
    let used = (0..).zip(lengths).filter(|(_, &l)| l > 0).map(|(table, _)| table);
    let short = used.map(|tables| Run { operation: Operation::ReadShort, tables, answer: TABLE_TOO_SHORT });
    [Run::longer(Operation::Read, status), full].into_iter().chain(short).collect()
}

fn found_status(found: Found) -> u32 {
    match found {
        Found::None => NONE,
        Found::Refused(n) => n as u32,
        Found::At(_) => DONE,
    }
}

/// The check's answer and its bone count; the tag looked up, the lookup's answer and the position found.
fn others(verdict: Verdict, tag: u16, found: Found) -> Vec<u8> {
    let (check, bones) = match verdict {
        Verdict::None => (NONE, 0),
        Verdict::Refused(n) => (n as u32, 0),
        Verdict::Accepted(n) => (DONE, n as u32),
    };
    let position = if let Found::At(p) = found { p } else { 0 };
    words(&[check, bones, tag as u32, found_status(found), position])
}

/// The fields, and the rows of each table but the pool.
fn rows(r: &Reading) -> Vec<Vec<u8>> {
    let [bones, buckets, entries, inverse, local, parents, children] = tables::words(r);
    let lists = [parents, children].map(|list| halves(&list.iter().map(|&i| i as i16).collect::<Vec<_>>()));
    let rows = [bones, buckets, entries, inverse, local].map(|table| words(&table));
    [vec![numbers(&fields(r).map(|n| n as u64))], rows.to_vec(), lists.to_vec()].concat()
}
