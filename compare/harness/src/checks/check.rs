//! One check of a section.

use crate::difference::Input;
use crate::lent::Lent;
use crate::lent_tables::{LentDerived, LentReading, LentSection};
use crate::skeletons::read::{Asked, ReadInput};
use crate::skeletons::write::sizes;
use cases::tables::{NAMES, WIDTHS};
use cases::{rows, Rng, Section};
use link::{Checks, DONE};
use oracle::{check_reading, Answer, Bone, Reading, Verdict};

/// The tables for deriving, in the order in which they are lent behind those of reading.
pub const DERIVED: [&str; 7] =
    ["derived buckets", "derived entries", "derived inverse", "derived local", "derived parents", "derived children", "pending"];

/// The words of a row of each; a row of the pending list has two.
const DERIVED_WIDTHS: [usize; 7] = [1, rows::ENTRY, rows::MATRIX, rows::MATRIX, 1, 1, 2];

/// All fifteen tables.
pub const TABLES: usize = 15;

pub fn name(table: usize) -> &'static str {
    NAMES.get(table).copied().unwrap_or_else(|| DERIVED[table - 8])
}

pub fn width(table: usize) -> usize {
    WIDTHS.get(table).copied().unwrap_or_else(|| DERIVED_WIDTHS[table - 8])
}

/// A section and the words of each lent table.
#[derive(Clone)]
pub struct CheckInput {
    pub read: ReadInput,
    /// Of the tables for deriving.
    pub derived: [usize; 7],
}

/// What the published functions give on a section.
pub struct Judged {
    pub reading: Asked,
    /// The check in tables that are long enough; `None` where the section does not read.
    pub verdict: Option<Verdict>,
}

impl Judged {
    pub fn of(section: &Section) -> Self {
        Self::by(Asked::of(section), check_reading)
    }

    fn by(reading: Asked, verdict: impl FnOnce(&Reading) -> Verdict) -> Self {
        let verdict = if let Answer::Read(r) = &reading.answer { Some(verdict(r)) } else { None };
        Judged { reading, verdict }
    }

    /// The words that the bones read want of each table for deriving.
    pub fn sizes(&self) -> [usize; 7] {
        sizes(self.bones().len())
    }

    /// The bones read.
    pub fn bones(&self) -> &[Bone] {
        match &self.reading.answer {
            Answer::Read(reading) => reading.bones.as_deref().unwrap_or(&[]),
            _ => &[],
        }
    }

    /// The status and the count of bones in tables of these lengths: reading's refusals, then 1 where a table for deriving is
    /// shorter than the bones read want it, then the verdict.
    pub fn status(&self, read: &[usize; 8], derived: &[usize; 7]) -> (u32, usize) {
        match (self.reading.status(read), self.verdict) {
            (DONE, _) if self.short(derived) => (1, 0),
            (DONE, Some(Verdict::Accepted(n))) => (DONE, n),
            (DONE, Some(Verdict::Refused(number))) => (number as u32, 0),
            (status, _) => (status, 0),
        }
    }

    /// The check in tables of these lengths. Reading's tables are kept after an acceptance only.
    pub fn lent(&self, i: &CheckInput) -> CheckAnswer {
        let (status, count) = self.status(&i.read.lengths, &i.derived);
        let mut tables = self.reading.lent(&i.read.lengths).tables;
        if status != DONE {
            tables.iter_mut().for_each(|table| table.fill(0));
        }
        let derived = i.derived.map(|length| vec![0; length]).to_vec();
        CheckAnswer { status, count, tables, pool: vec![0; i.read.lengths[7]], derived, intact: true }
    }

    /// Whether a table for deriving is too short for the bones read.
    pub fn short(&self, derived: &[usize; 7]) -> bool {
        derived.iter().zip(self.sizes()).any(|(&length, size)| length < size)
    }
}

impl CheckInput {
    /// With tables of just the rows that reading uses and of the sizes that the bones read want; what the Rust gives, too.
    pub fn exact(section: Section, dirt: u64) -> (Self, Judged) {
        Self::judged(section, dirt, check_reading)
    }

    /// As `exact`, with the verdict on a reading given.
    pub fn judged(section: Section, dirt: u64, verdict: impl FnOnce(&Reading) -> Verdict) -> (Self, Judged) {
        let (read, reading) = ReadInput::exact(section, dirt);
        let judged = Judged::by(reading, verdict);
        (CheckInput { read, derived: judged.sizes() }, judged)
    }

    /// With so many words more or fewer in one table.
    pub fn with(&self, table: usize, words: isize) -> Self {
        let mut input = self.clone();
        match table.checked_sub(8) {
            None => input.read = input.read.with(table, words),
            Some(derived) => input.derived[derived] = input.derived[derived].saturating_add_signed(words),
        }
        input
    }
}

impl Input for CheckInput {
    fn smaller(&self) -> impl Iterator<Item = Self> {
        let wanted = |section: &Section| CheckInput::exact(section.clone(), 0).0.derived;
        let was = wanted(&self.read.section);
        // each table as much longer or shorter than it must be as it was
        let sections = self.read.smaller().map(move |read| {
            let now = wanted(&read.section);
            let derived = std::array::from_fn(|t| (self.derived[t] + now[t]).saturating_sub(was[t]));
            CheckInput { read, derived }
        });
        let exact = (0..7).filter(move |&t| was[t] < self.derived[t]).map(move |t| {
            let mut derived = self.derived;
            derived[t] = was[t];
            CheckInput { derived, ..self.clone() }
        });
        sections.chain(exact)
    }

    fn text(&self) -> String {
        let words: String = DERIVED.iter().zip(self.derived).map(|(name, length)| format!(" {name} {length}")).collect();
        format!("{}words of the tables for deriving:{words}\n", self.read.text())
    }
}

/// What came back, and every word lent afterwards.
#[derive(Debug, PartialEq, Eq)]
pub struct CheckAnswer {
    pub status: u32,
    /// The bones of an accepted section.
    pub count: usize,
    /// Reading's tables but the pool, 16-bit words widened.
    pub tables: [Vec<u32>; 7],
    pool: Vec<u64>,
    derived: Vec<Vec<u32>>,
    /// Both halves and the guards are as they were.
    intact: bool,
}

/// Makes the call on dirty tables between guards.
pub fn ours(library: &dyn Checks, i: &CheckInput) -> CheckAnswer {
    let (mut rng, mut intact) = (Rng::new(i.read.dirt), true);
    let (mut section, mut read) = (LentSection::of(&i.read.section), LentReading::dirty(&i.read.lengths, &mut rng));
    let (mut derived, mut counted) = (LentDerived::dirty(&i.derived, &mut rng), Lent::<usize>::dirty(1, &mut rng));
    let [count] = counted.array();
    let status = library.check(section.halves(), i.read.section.root, read.tables(), derived.tables(), count);
    section.kept(&mut intact);
    let (tables, pool) = read.back(&mut intact);
    let (derived, count) = (derived.back(&mut intact), counted.back(&mut intact)[0]);
    CheckAnswer { status, count, tables, pool, derived, intact }
}

/// The check put together from the published functions, in the tables that are lent.
pub fn rust(i: &CheckInput) -> CheckAnswer {
    CheckInput::exact(i.read.section.clone(), 0).1.lent(i)
}
