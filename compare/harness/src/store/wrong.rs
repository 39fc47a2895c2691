//! Cases that are wrong on purpose, behind all others: `replay` must report each of them, which shows that it compares what it
//! says it does. There is one for each thing that an operation compares.

use super::case::{Operation, Stored};
use link::{DONE, NONE};
use Change::*;
use Kind::*;
use Operation::*;

/// The number of the first; no other case has so great a one.
pub const FIRST: u32 = 1_000_001;

/// The kinds of answers.
#[derive(Clone, Copy, Debug, PartialEq, Eq)]
enum Kind {
    Done,
    Nothing,
    Refused,
}

/// What is wrong of a case.
#[derive(Clone, Copy, Debug)]
enum Change {
    /// An answer of this kind is one greater.
    Answer(Kind),
    /// The last byte of this part, which the call must leave, is another.
    Byte(usize),
    /// These bytes stand behind the part: a count is another, or words where a working table must be zero.
    Longer(usize, &'static [u8]),
}

/// The part that holds the answer of a reading of joints, in front of the other fields.
const JOINTS_FIELDS: usize = 4;

/// What replay's buffer holds before a call.
const DIRT: &[u8] = &[0xA5];

const ANSWER: [Change; 3] = [Answer(Done), Answer(Nothing), Answer(Refused)];
const FIELDS_AND_TABLES: [Change; 8] = [Byte(6), Byte(7), Byte(8), Byte(9), Byte(10), Byte(11), Byte(12), Byte(13)];
const POOL: [Change; 1] = [Longer(14, &[1, 0, 0, 0, 0, 0, 0, 0])];

fn changes(operation: Operation) -> Vec<Change> {
    match operation {
        Read | ReadFull => [&ANSWER[..], &FIELDS_AND_TABLES, &POOL].concat(),
        ReadShort => vec![Answer(Refused)],
        Lookup => [&ANSWER[..], &[Byte(3)]].concat(),
        Tags => vec![Answer(Done), Answer(Refused), Byte(3), Longer(3, &[0; 4]), Byte(4)],
        Indices => vec![Answer(Done), Answer(Refused), Byte(5), Byte(6), Longer(6, &[0; 2]), Longer(9, &[1, 0, 0, 0])],
        Matrices => vec![Answer(Done), Answer(Refused), Byte(7), Byte(8)],
        JointsRead => [&ANSWER[..], &[Byte(JOINTS_FIELDS), Byte(5), Byte(6)]].concat(),
        JointsWrite => vec![Answer(Done), Answer(Refused), Byte(4), Longer(4, DIRT)],
        FreshLimit => vec![Byte(2)],
        Hash => vec![Byte(3)],
        RotationRead | TranslationRead => vec![Byte(3)],
        RotationWrite | TranslationWrite => vec![Answer(Done), Answer(Refused), Byte(3)],
    }
}

/// The wrong cases, each made of the shortest of these that the change fits, with the one run that must report it.
pub fn cases(good: &[Stored]) -> Result<Vec<Stored>, String> {
    let all = Operation::ALL.into_iter().flat_map(|o| changes(o).into_iter().map(move |change| (o, change)));
    all.zip(FIRST..).map(|((operation, change), number)| one(good, operation, change, number)).collect()
}

fn one(good: &[Stored], operation: Operation, change: Change, number: u32) -> Result<Stored, String> {
    let kind = if let Answer(kind) = change { kind } else { Done };
    let run = |case: &Stored| case.runs.iter().copied().find(|r| r.operation == operation && kind_of(r.answer) == kind);
    let fits = |case: &&Stored| run(case).is_some() && holds(case, change);
    let case = good.iter().filter(fits).min_by_key(|case| case.bytes().len());
    let case = case.ok_or_else(|| format!("no {} to be made wrong: {change:?}", operation.name()))?;
    let mut wrong = Stored { number, runs: run(case).into_iter().collect(), ..case.clone() };
    match change {
        Answer(_) => {
            wrong.runs.iter_mut().for_each(|r| r.answer += 1);
            if operation == JointsRead {
                wrong.part(JOINTS_FIELDS)[0] += 1;
            }
        }
        Byte(k) => wrong.part(k).last_mut().into_iter().for_each(|byte| *byte ^= 1),
        Longer(k, bytes) => wrong.part(k).extend(bytes),
    }
    Ok(wrong)
}

fn kind_of(answer: u32) -> Kind {
    match answer {
        DONE => Done,
        NONE => Nothing,
        _ => Refused,
    }
}

/// Whether a case has what is changed: a byte of the part, or all parts up to it.
fn holds(case: &Stored, change: Change) -> bool {
    match change {
        Answer(_) => true,
        Byte(k) => case.parts.get(k - Stored::OWN).is_some_and(|part| !part.is_empty()),
        Longer(k, _) => case.parts.len() >= k - Stored::OWN,
    }
}
