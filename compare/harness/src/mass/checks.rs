//! Checks.

use super::distinct::Distinct;
use super::memory::{section_hash, Left};
use super::{drawn_length, few_damaged, found, joined, Done};
use crate::checks::check::{name, width, CheckInput, Judged, TABLES};
use crate::checks::{check_label, Runs};
use crate::difference::Difference;
use crate::lent::Lent;
use crate::lent_tables::{Dirts, LentDerived, LentHalves, LentReading};
use crate::share::workers;
use crate::skeletons::read::ReadInput;
use crate::tally::{refusal, Tally};
use cases::{good_of, Rng, Section};
use link::{Checks, DONE};
use oracle::Verdict;
use std::path::Path;

/// The sections made of each seed, and the lent sizes in which each is checked.
const SECTIONS: u64 = 32;
const SIZES: u64 = 3;

/// An error that names what never came.
pub fn require_all(tally: &Tally) -> Result<(), String> {
    let all: Vec<&str> = (0..TABLES).map(name).collect();
    tally.require("check", &["ok", "none", "1", "10", "11", "12", "13", "21", "22", "23", "24", "25"])?;
    tally.require("check, too short", &all)?;
    tally.require("check, 1 before", &["ok", "21", "22", "23", "24", "25"])
}

/// At least so many checks.
pub fn run(library: &dyn Checks, folder: &Path, seed: u64, count: u64, threads: u64) -> Result<Done, Difference> {
    let seeds = count.div_ceil(SECTIONS * SIZES);
    let mut parts = workers(threads, |first| {
        let mut checked = Checked::new(Runs { library, folder, seed }, first);
        (first..seeds).step_by(threads as usize).try_for_each(|i| checked.seed(seed + i))?;
        Ok((checked.tally, checked.sections))
    })?;
    let mut tally = Tally::default();
    parts.iter().for_each(|(part, _)| tally.merge(part));
    let distinct = vec![("sections", joined(parts.iter_mut().map(|(_, sections)| sections)))];
    Ok(Done { calls: seeds * SECTIONS * SIZES, of: "checks", seeds: [seed, seed + seeds], tally, distinct })
}

/// All that a check is lent.
struct Memory {
    halves: LentHalves,
    read: LentReading,
    derived: LentDerived,
    count: Lent<usize>,
}

/// The words of the tables for reading and for deriving.
type Lengths = ([usize; 8], [usize; 7]);

impl Memory {
    fn new() -> Self {
        let rng = &mut Rng::new(0);
        let (read, derived) = (LentReading::dirty(&[0; 8], rng), LentDerived::dirty(&[0; 7], rng));
        Memory { halves: LentHalves::new(), read, derived, count: Lent::of(&[]) }
    }

    /// Checks the section whose halves were lent, in dirty tables of these lengths.
    fn check(&mut self, library: &dyn Checks, root: u64, (read, derived): &Lengths, dirt: &mut Dirts) -> u32 {
        self.read.again(read, dirt);
        self.derived.again(derived, dirt);
        self.count.again(dirt.sizes.part(1, &mut dirt.rng));
        let [count] = self.count.array();
        library.check(self.halves.halves(), root, self.read.tables(), self.derived.tables(), count)
    }

    /// Whether a check of this status left what it must: the count, the rows read after an acceptance, else zeros, and the halves
    /// and all guards as they were.
    fn holds(&mut self, section: &Section, (status, count): (u32, usize), left: &Left) -> bool {
        self.count.is_still(&[count])
            && self.read.hold(left.rows().filter(|_| status == DONE))
            && self.derived.are_zero()
            && self.halves.are_still([&section.system, &section.graphics])
    }
}

struct Checked<'a> {
    runs: Runs<'a>,
    memory: Memory,
    dirt: Dirts,
    tally: Tally,
    sections: Distinct,
}

impl<'a> Checked<'a> {
    fn new(runs: Runs<'a>, number: u64) -> Self {
        let dirt = Dirts::new(runs.seed.wrapping_add(number));
        Checked { runs, memory: Memory::new(), dirt, tally: Tally::default(), sections: Distinct::default() }
    }

    fn seed(&mut self, seed: u64) -> Result<(), Difference> {
        few_damaged(&mut Rng::new(!seed), SECTIONS, |section, rng| self.section(section, rng, seed))
    }

    /// The section in tables of just the words that it wants, with one table a row or a word short, and in any.
    fn section(&mut self, section: &Section, rng: &mut Rng, seed: u64) -> Result<(), Difference> {
        let judged = Judged::of(section);
        let (left, exact) = (Left::of(&judged.reading), (judged.reading.exact(), judged.sizes()));
        self.sections.add(section_hash(section));
        self.memory.halves.again(section);
        for size in 0..SIZES {
            let (mut read, mut derived) = exact;
            match size {
                0 => {}
                1 => {
                    let table = rng.below(TABLES);
                    let length = if table < 8 { &mut read[table] } else { &mut derived[table - 8] };
                    *length = length.saturating_sub(if rng.one_in(3) { 1 } else { width(table) });
                    if judged.status(&read, &derived).0 == 1 {
                        self.too_short(table, judged.verdict);
                    }
                }
                _ => read.iter_mut().chain(&mut derived).for_each(|length| *length = drawn_length(rng, *length)),
            }
            self.check(section, (&judged, &left), (read, derived), seed)?;
        }
        Ok(())
    }

    fn too_short(&mut self, table: usize, verdict: Option<Verdict>) {
        self.tally.count("check, too short", name(table));
        if let Some(verdict) = verdict.filter(|_| table >= 8) {
            self.tally.count("check, 1 before", if let Verdict::Refused(number) = verdict { refusal(number) } else { "ok" });
        }
    }

    fn check(&mut self, section: &Section, rust: (&Judged, &Left), lengths: Lengths, seed: u64) -> Result<(), Difference> {
        let (judged, left) = rust;
        let given = self.memory.check(self.runs.library, section.root, &lengths, &mut self.dirt);
        let known = judged.status(&lengths.0, &lengths.1);
        self.tally.count("check", check_label(known.0));
        if given == known.0 && self.memory.holds(section, known, left) {
            return Ok(());
        }
        let (runs, (lengths, derived)) = (self.runs.with(seed), lengths);
        let input = CheckInput { read: ReadInput { section: section.clone(), lengths, dirt: seed }, derived };
        let again = runs.check(&mut Tally::default(), &input, judged);
        Err(found(&runs.place("verdicts"), &input, again))
    }
}

/// Whether it is noticed that a word of a table or the count, a guard, or a byte of the section was touched.
pub fn touches_are_noticed(library: &dyn Checks) -> bool {
    let section = good_of(&mut Rng::new(1), &cases::trial::control_rig());
    let judged = Judged::of(&section);
    let left = Left::of(&judged.reading);
    let lengths = (judged.reading.exact().map(|length| length + 2), judged.sizes().map(|length| length + 2));
    let known = judged.status(&lengths.0, &lengths.1);
    assert_eq!(known.0, DONE, "a good section");
    let (mut memory, mut dirt) = (Memory::new(), Dirts::new(1));
    let mut noticed = |touch: &dyn Fn(&mut Memory, usize) -> bool| {
        (0..)
            .map_while(|at| {
                memory.halves.again(&section);
                let right =
                    memory.check(library, section.root, &lengths, &mut dirt) == DONE && memory.holds(&section, known, &left);
                let touched = touch(&mut memory, at);
                touched.then(|| right && !memory.holds(&section, known, &left))
            })
            .all(|noticed| noticed)
    };
    (0..8).all(|table| noticed(&|memory, at| memory.read.touch(table, at)))
        && (0..7).all(|table| noticed(&|memory, at| memory.derived.touch(table, at)))
        && (0..2).all(|half| noticed(&|memory, at| memory.halves.touch(half, at)))
        && noticed(&|memory, at| memory.count.touch(at))
}
