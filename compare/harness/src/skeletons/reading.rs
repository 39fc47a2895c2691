//! Which sections are read.

use super::read::{Asked, ReadAnswer, ReadInput};
use super::shown;
use super::write::{Published, WriteInput};
use super::Runs;
use crate::difference::Difference;
use crate::extent::Extent;
use crate::share::{share, share_items};
use crate::tally::Tally;
use cases::rigs::{broad, rig_of};
use cases::scattered::scattered;
use cases::tables::{self, WIDTHS};
use cases::trial::plain_bone;
use cases::{damaged, good, Hand, Rng, Section};
use link::DONE;
use oracle::{write, Answer, Bone};

pub fn run(runs: Runs, extent: Extent, threads: u64) -> Result<Tally, Difference> {
    let mut tally = Tally::default();
    runs.sizes(&mut tally, extent, threads)?;
    runs.truncations(&mut tally, ends_with_bones())?;
    let cut = extent.of([3, 20, 400]);
    let truncations = |tally: &mut Tally, seed| runs.with(seed).truncations(tally, good(&mut Rng::new(seed)).1);
    tally.merge(&share(runs.seed, cut, threads, truncations)?);
    let sections = extent.of([1_500, 300_000, 5_000_000]);
    tally.merge(&share(runs.seed, sections, threads, |tally, seed| runs.with(seed).damaged(tally))?);
    Ok(tally)
}

impl Runs<'_> {
    /// Sections of the counts at which the format turns, each table exact, a row short, a word short and longer.
    fn sizes(self, tally: &mut Tally, extent: Extent, threads: u64) -> Result<(), Difference> {
        let mut rng = Rng::new(self.seed);
        let mut rigs: Vec<Vec<Bone>> = [0, 1, 2, 11].map(|n| rig_of(&mut rng, n)).to_vec();
        if extent > Extent::Test {
            rigs.push(rig_of(&mut rng, 800));
            rigs.extend([10_000, 65_535].map(|n| broad(&mut rng, n, 100)));
        }
        for bones in rigs {
            let mut sections = vec![Section::written(write(&bones, [1, 2, 3, 4]).section())];
            if bones.len() <= 800 {
                sections.push(scattered(&mut rng, &bones, [5, 6, 7, 8]));
            }
            for section in sections {
                let (exact, asked) = ReadInput::exact(section, rng.next());
                let mut inputs = vec![exact.clone()];
                for (table, width) in WIDTHS.into_iter().enumerate() {
                    inputs.extend([-(width as isize), -1, 1].map(|words| exact.with(table, words)));
                }
                tally.merge(&share_items(&inputs, threads, |tally, input| self.read(tally, input, &asked).map(drop))?);
            }
        }
        Ok(())
    }

    /// Every truncation of either half of a section, in the tables that it uses then.
    fn truncations(self, tally: &mut Tally, whole: Section) -> Result<(), Difference> {
        for section in whole.truncations() {
            let (exact, asked) = ReadInput::exact(section, self.seed);
            self.read(tally, &exact, &asked)?;
            count_shown(tally, &exact, &asked);
        }
        Ok(())
    }

    /// A damaged section in tables of just the rows that it uses and in others; the bones of one that reads are now and
    /// then written again.
    fn damaged(self, tally: &mut Tally) -> Result<(), Difference> {
        // a generator that draws otherwise than the section's
        let mut rng = Rng::new(!self.seed);
        let section = damaged(self.seed).section;
        let (exact, asked) = ReadInput::exact(section, rng.next());
        let read = self.read(tally, &exact, &asked)?;
        let (table, other) = otherwise(&mut rng, &exact);
        if self.read(tally, &other, &asked)?.status == 1 {
            tally.count("read, too short", tables::NAMES[table]);
        }
        count_shown(tally, &exact, &asked);
        if read.status == DONE && rng.one_in(4) {
            let (written, section) = read_bones(&read, &exact.section, rng.next());
            self.write_known(tally, &written, &section)?;
        }
        Ok(())
    }
}

fn count_shown(tally: &mut Tally, exact: &ReadInput, asked: &Asked) {
    if let Answer::Read(reading) = &asked.answer {
        shown::read(&exact.section, reading).for_each(|shown| tally.count("read with", shown));
    }
}

/// A section that ends with its bones.
fn ends_with_bones() -> Section {
    let mut h = Hand::new();
    h.add_bones(&[plain_bone(0, -1), plain_bone(1, 0)], &[]);
    h.section()
}

/// The tables longer, or the table given a row or a word short.
fn otherwise(rng: &mut Rng, exact: &ReadInput) -> (usize, ReadInput) {
    let table = rng.below(WIDTHS.len());
    let input = match rng.below(4) {
        0 => (0..WIDTHS.len()).fold(exact.clone(), |input, table| input.with(table, rng.below(30) as isize)),
        1 => exact.with(table, -1),
        _ => exact.with(table, -(WIDTHS[table] as isize)),
    };
    (table, input)
}

/// The bones read, to be written with the section lent as the bytes of their names.
pub fn read_bones(read: &ReadAnswer, section: &Section, dirt: u64) -> (WriteInput, Published) {
    assert_eq!(read.status, DONE);
    let (bones, free) = (read.tables[0].clone(), [1, 2, 3, 4].map(|field| read.fields[field] as u32));
    let n = bones.len() / cases::rows::BONE;
    WriteInput::exact(bones, n, [section.system.clone(), section.graphics.clone()], free, dirt)
}
