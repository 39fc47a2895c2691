//! Which bones are written.

use super::read::ReadInput;
use super::reading::read_bones;
use super::shown;
use super::write::{Published, WriteInput};
use super::Runs;
use crate::derived::input::MOST;
use crate::difference::Difference;
use crate::extent::Extent;
use crate::share::share;
use crate::tally::Tally;
use cases::names::Names;
use cases::rigs::{broad, rig, rig_of, LONGEST_WRITTEN};
use cases::{rows, Rng, Section};
use link::DONE;
use oracle::Bone;

pub fn run(runs: Runs, extent: Extent, threads: u64) -> Result<Tally, Difference> {
    let mut tally = Tally::default();
    runs.counts(&mut tally, extent)?;
    let rigs = extent.of([400, 50_000, 1_000_000]);
    tally.merge(&share(runs.seed, rigs, threads, |tally, seed| runs.with(seed).random(tally))?);
    if extent > Extent::Test {
        runs.orders(&mut tally, threads)?;
    }
    Ok(tally)
}

/// The bones with their names spread over two halves, everything lent exactly as long as it must be.
fn exact(rng: &mut Rng, bones: &[Bone]) -> (WriteInput, Published) {
    let names = Names::spread(rng, bones);
    let free = [0; 4].map(|_: u32| rng.next() as u32);
    WriteInput::exact(rows::placed_bones(bones, &names.places), bones.len(), names.halves, free, rng.next())
}

/// A condition and its number.
type Condition = (u32, fn(&mut WriteInput));

/// The refusals in their order; that of the child entries is the rig's own.
const CONDITIONS: [Condition; 5] = [
    (2, |i| (i.n, i.room) = (MOST + 1, [isize::MIN; 7])),
    (1, |i| i.bones.truncate(i.bones.len() - 1)),
    (4, |i| (i.bones[17], i.bones[18]) = (1, 0)),
    (1, |i| i.room = [isize::MIN; 7]),
    (5, |i| i.out = 100),
];

impl Runs<'_> {
    /// All choices of conditions, on bones of 65,528 child entries, which can be written, and of 65,536: the first gives its
    /// number.
    fn orders(self, tally: &mut Tally, threads: u64) -> Result<(), Difference> {
        let mut rng = Rng::new(self.seed);
        for (chain, three) in [(LONGEST_WRITTEN, false), (LONGEST_WRITTEN + 1, true)] {
            let bones = broad(&mut rng, chain, chain);
            let (written, _) = exact(&mut rng, &bones);
            let base = WriteInput { out: if three { 10_000_000 } else { written.out }, ..written };
            let answers = share(0, 1 << CONDITIONS.len(), threads, |tally, chosen| {
                let mut input = base.clone();
                let holding = (0..CONDITIONS.len()).filter(|c| chosen >> c & 1 == 1).map(|c| CONDITIONS[c]);
                let mut numbers: Vec<u32> = holding.inspect(|(_, make)| make(&mut input)).map(|(number, _)| number).collect();
                if three {
                    let before_five = numbers.iter().position(|&number| number == 5).unwrap_or(numbers.len());
                    numbers.insert(before_five, 3);
                }
                let answer = self.write(tally, &input)?;
                assert_eq!(answer.status, numbers.first().copied().unwrap_or(DONE), "the first of {numbers:?}");
                Ok(())
            })?;
            tally.merge(&answers);
        }
        Ok(())
    }

    /// Bones of the counts at which the format turns, with each working table and the buffer exact, longer and shorter.
    fn counts(self, tally: &mut Tally, extent: Extent) -> Result<(), Difference> {
        let mut rng = Rng::new(self.seed);
        let mut rigs: Vec<Vec<Bone>> = [0, 1, 2, 10, 11].map(|n| rig_of(&mut rng, n)).to_vec();
        if extent > Extent::Test {
            rigs.push(rig_of(&mut rng, 800));
            rigs.push(broad(&mut rng, MOST, 100));
        }
        for bones in rigs {
            let (input, section) = exact(&mut rng, &bones);
            self.written(tally, &input, &section)?;
            if bones.len() == MOST {
                continue;
            }
            for out in [input.out - 1, input.out + 1, input.out + 1_000, 0] {
                self.write(tally, &WriteInput { out, ..input.clone() })?;
            }
            for (table, more) in (0..7).flat_map(|table| [(table, 1), (table, -1)]) {
                let mut room = [0; 7];
                room[table] = more;
                self.write(tally, &WriteInput { room, ..input.clone() })?;
            }
            self.write(tally, &WriteInput { room: [isize::MIN; 7], ..input })?;
        }
        // more bones than 65,535, without a table that holds them and with one
        let (none, _) = exact(&mut rng, &[]);
        for n in [MOST + 1, MOST + 2, 1 << 32, 1 << 60, usize::MAX] {
            self.write(tally, &WriteInput { n, room: [isize::MIN; 7], ..none.clone() })?;
        }
        self.write(tally, &WriteInput { bones: vec![1; rows::BONE * (MOST + 1)], n: MOST + 1, ..none }).map(drop)
    }

    /// A random rig, as it is or with one or more of what is lent unlike what it must be.
    fn random(self, tally: &mut Tally) -> Result<(), Difference> {
        let mut rng = Rng::new(self.seed);
        let bones = rig(&mut rng);
        let (mut input, section) = exact(&mut rng, &bones);
        if rng.one_in(2) {
            return self.written(tally, &input, &section);
        }
        if rng.one_in(3) {
            let mut names = Names::spread(&mut rng, &bones);
            names.spoil(&mut rng);
            let table = rows::placed_bones(&bones, &names.places);
            (input, _) = WriteInput::exact(table, bones.len(), names.halves, input.free, input.dirt);
        }
        if rng.one_in(6) {
            input.bones.truncate(input.bones.len().saturating_sub(1 + rng.below(30)));
        }
        if rng.one_in(3) {
            input.room = input.room.map(|_| if rng.one_in(8) { -1 - rng.below(3) as isize } else { rng.below(20) as isize });
        }
        match rng.below(12) {
            0 => input.n = rng.pick(&[0, bones.len() / 2, bones.len() + 1]),
            1 => (input.n, input.room) = (rng.pick(&[MOST, MOST + 1, usize::MAX]), [isize::MIN; 7]),
            _ => {}
        }
        if rng.one_in(3) {
            input.out = rng.pick(&[input.out.saturating_sub(1), input.out / 2, input.out + 1, input.out + 100]);
        }
        shown::names(&input).for_each(|shown| tally.count("write with", shown));
        self.write(tally, &input).map(drop)
    }

    /// Bones that may be written. The section is read back; its bones, written again with it lent as the bytes of their names,
    /// give the same section.
    fn written(self, tally: &mut Tally, input: &WriteInput, section: &Published) -> Result<(), Difference> {
        let answer = self.write_known(tally, input, section)?;
        if answer.status != DONE {
            return Ok(());
        }
        let (written, asked) = ReadInput::exact(Section::written(answer.out[..answer.count].to_vec()), input.dirt);
        let read = self.read(tally, &written, &asked)?;
        let (again, section) = read_bones(&read, &written.section, input.dirt);
        let again = self.write_known(tally, &again, &section)?;
        assert!(again.status == DONE && again.out == written.section.system, "written again otherwise, seed {}", self.seed);
        tally.count("written again", "equal");
        Ok(())
    }
}
