//! Readings.

use super::distinct::Distinct;
use super::memory::{section_hash, Left, ReadMemory};
use super::{drawn_length, few_damaged, found, joined, Done};
use crate::difference::Difference;
use crate::lent_tables::Dirts;
use crate::share::workers;
use crate::skeletons::read::{Asked, ReadInput};
use crate::skeletons::Runs;
use crate::tally::{status, Tally};
use cases::tables::{NAMES, WIDTHS};
use cases::{good_of, Rng, Section};
use link::{Skeletons, DONE};
use std::path::Path;

/// The sections made of each seed, and the lent sizes in which each is read.
const SECTIONS: u64 = 32;
const SIZES: u64 = 4;

/// An error that names what never came.
pub fn require_all(tally: &Tally) -> Result<(), String> {
    tally.require("read", &["done", "none", "1", "10", "11", "12", "13"])?;
    tally.require("read, too short", &NAMES)
}

/// At least so many readings.
pub fn run(library: &dyn Skeletons, folder: &Path, seed: u64, count: u64, threads: u64) -> Result<Done, Difference> {
    let seeds = count.div_ceil(SECTIONS * SIZES);
    let mut parts = workers(threads, |first| {
        let mut reads = Reads::new(Runs { library, folder, seed }, first);
        (first..seeds).step_by(threads as usize).try_for_each(|i| reads.seed(seed + i))?;
        Ok(reads.counted)
    })?;
    let mut tally = Tally::default();
    parts.iter().for_each(|part| tally.merge(&part.tally));
    let sections = joined(parts.iter_mut().map(|part| &mut part.sections));
    let answers = joined(parts.iter_mut().map(|part| &mut part.answers));
    let distinct = vec![("sections", sections), ("answers", answers)];
    Ok(Done { calls: seeds * SECTIONS * SIZES, of: "reads", seeds: [seed, seed + seeds], tally, distinct })
}

#[derive(Default)]
struct Counted {
    tally: Tally,
    sections: Distinct,
    answers: Distinct,
}

struct Reads<'a> {
    runs: Runs<'a>,
    memory: ReadMemory,
    dirt: Dirts,
    counted: Counted,
}

impl<'a> Reads<'a> {
    fn new(runs: Runs<'a>, number: u64) -> Self {
        let dirt = Dirts::new(runs.seed.wrapping_add(number));
        Reads { runs, memory: ReadMemory::new(), dirt, counted: Counted::default() }
    }

    fn seed(&mut self, seed: u64) -> Result<(), Difference> {
        few_damaged(&mut Rng::new(!seed), SECTIONS, |section, rng| self.section(section, rng, seed))
    }

    /// The section in tables of just the rows that it uses, in longer ones, with one table a row short, and in any.
    fn section(&mut self, section: &Section, rng: &mut Rng, seed: u64) -> Result<(), Difference> {
        let asked = Asked::of(section);
        let (left, exact) = (Left::of(&asked), asked.exact());
        self.counted.sections.add(section_hash(section));
        self.counted.answers.add(left.hash(asked.status(&exact)));
        self.memory.halves.again(section);
        for size in 0..SIZES {
            let mut lengths = exact;
            match size {
                0 => {}
                1 => lengths.iter_mut().for_each(|length| *length += rng.below(30)),
                2 => {
                    let table = one_used(rng, &exact);
                    lengths[table] = exact[table].saturating_sub(WIDTHS[table]);
                    if asked.status(&lengths) == 1 {
                        self.counted.tally.count("read, too short", NAMES[table]);
                    }
                }
                _ => lengths.iter_mut().for_each(|length| *length = drawn_length(rng, *length)),
            }
            self.read(section, (&asked, &left), lengths, seed)?;
        }
        Ok(())
    }

    fn read(&mut self, section: &Section, rust: (&Asked, &Left), lengths: [usize; 8], seed: u64) -> Result<(), Difference> {
        let (asked, left) = rust;
        let given = self.memory.read(self.runs.library, section.root, &lengths, &mut self.dirt);
        let known = asked.status(&lengths);
        self.counted.tally.count("read", status(known));
        if given == known && self.memory.holds(section, known, left) {
            return Ok(());
        }
        let (runs, input) = (self.runs.with(seed), ReadInput { section: section.clone(), lengths, dirt: seed });
        let again = runs.read(&mut Tally::default(), &input, asked);
        Err(found(&runs.place("reads"), &input, again))
    }
}

/// One of the tables of which rows are used, or any where none is.
fn one_used(rng: &mut Rng, exact: &[usize; 8]) -> usize {
    let first = rng.below(8);
    (first..first + 8).map(|table| table % 8).find(|&table| exact[table] > 0).unwrap_or(first)
}

/// Whether it is noticed that a word of a table or a field, a guard, or a byte of the section was touched.
pub fn touches_are_noticed(library: &dyn Skeletons) -> bool {
    let mut rng = Rng::new(1);
    let section = good_of(&mut rng, &cases::trial::control_rig());
    let asked = Asked::of(&section);
    let (left, lengths) = (Left::of(&asked), asked.exact().map(|length| length + 2));
    assert_eq!(asked.status(&lengths), DONE, "a good section");
    let (mut memory, mut dirt) = (ReadMemory::new(), Dirts::new(1));
    let mut noticed = |touch: &dyn Fn(&mut ReadMemory, usize) -> bool| {
        (0..)
            .map_while(|at| {
                memory.halves.again(&section);
                let right =
                    memory.read(library, section.root, &lengths, &mut dirt) == DONE && memory.holds(&section, DONE, &left);
                let touched = touch(&mut memory, at);
                touched.then(|| right && !memory.holds(&section, DONE, &left))
            })
            .all(|noticed| noticed)
    };
    (0..8).all(|table| noticed(&|memory, at| memory.tables.touch(table, at)))
        && (0..2).all(|half| noticed(&|memory, at| memory.halves.touch(half, at)))
        && noticed(&|memory, at| memory.fields.touch(at))
}
