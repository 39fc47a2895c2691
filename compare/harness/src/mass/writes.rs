//! Writings and round trips.

use super::distinct::{Distinct, Hash};
use super::memory::{Left, ReadMemory};
use super::{few_bones, found, joined, Done};
use crate::derived::input::MOST;
use crate::difference::{store, Difference, Input};
use crate::lent::Lent;
use crate::lent_tables::{Dirts, LentDerived, LentHalves, ReadRows};
use crate::share::workers;
use crate::skeletons::read::{Asked, ReadInput};
use crate::skeletons::write::{Published, WriteInput};
use crate::skeletons::Runs;
use crate::tally::{status, Tally};
use cases::names::Names;
use cases::rows::{self, Place};
use cases::rows_changed::change_rows;
use cases::{Rng, Section};
use link::{Skeletons, WrittenBones, DONE};
use oracle::NameBytes;
use std::path::Path;

/// The rigs made of each seed; each is written in all that it wants, and in other lent sizes.
const RIGS: u64 = 16;

/// An error that names what never came.
pub fn require_all(tally: &Tally) -> Result<(), String> {
    tally.require("write", &["done", "1", "2", "4", "5"])?;
    tally.require("round trip", &["equal"])
}

/// At least so many writings, each with its round trip where it is done.
pub fn run(library: &dyn Skeletons, folder: &Path, seed: u64, count: u64, threads: u64) -> Result<Done, Difference> {
    let seeds = count.div_ceil(RIGS);
    let mut parts = workers(threads, |first| {
        let mut writes = Writes::new(Runs { library, folder, seed }, first);
        (first..seeds).step_by(threads as usize).try_for_each(|i| writes.seed(seed + i))?;
        Ok((writes.tally, writes.sections))
    })?;
    let mut tally = Tally::default();
    parts.iter().for_each(|(part, _)| tally.merge(part));
    let distinct = vec![("sections", joined(parts.iter_mut().map(|(_, sections)| sections)))];
    Ok(Done { calls: seeds * RIGS, of: "rigs written", seeds: [seed, seed + seeds], tally, distinct })
}

/// All that a writing is lent.
struct Memory {
    bones: Lent<u32>,
    names: LentHalves,
    free: Lent<u32>,
    tables: LentDerived,
    out: Lent<u8>,
    count: Lent<usize>,
    /// What the buffer held at entry.
    was: Vec<u8>,
}

impl Memory {
    fn new() -> Self {
        Memory {
            bones: Lent::of(&[]),
            names: LentHalves::new(),
            free: Lent::of(&[]),
            tables: LentDerived::dirty(&[0; 7], &mut Rng::new(0)),
            out: Lent::of(&[]),
            count: Lent::of(&[]),
            was: Vec::new(),
        }
    }

    fn write(&mut self, library: &dyn Skeletons, i: &WriteInput, dirt: &mut Dirts) -> u32 {
        self.bones.again(&i.bones);
        self.names.of(i.names.each_ref().map(|half| &half[..]));
        self.free.again(&i.free);
        self.tables.again(&i.lengths(), dirt);
        self.was.clear();
        self.was.extend_from_slice(dirt.bytes.part(i.out, &mut dirt.rng));
        self.out.again(&self.was);
        self.count.again(dirt.sizes.part(1, &mut dirt.rng));
        let [count] = self.count.array();
        let bones = WrittenBones { table: self.bones.slice(), n: i.n, names: self.names.halves(), free: self.free.array() };
        library.write(bones, self.tables.tables(), self.out.slice(), count)
    }

    /// Whether a writing left what it must: the count, the section at the front of the buffer, which is else as it was, the
    /// working tables zero, and the bones, the names, the free words and all guards as they were.
    fn holds(&mut self, i: &WriteInput, count: usize, section: &Published) -> bool {
        if let Ok(bytes) = section {
            self.was[..count].copy_from_slice(&bytes[..count]);
        }
        self.count.is_still(&[count])
            && self.out.is_still(&self.was)
            && self.tables.are_zero()
            && self.bones.is_still(&i.bones)
            && self.free.is_still(&i.free)
            && self.names.are_still(i.names.each_ref().map(|half| &half[..]))
    }
}

struct Writes<'a> {
    runs: Runs<'a>,
    memory: Memory,
    read: ReadMemory,
    dirt: Dirts,
    tally: Tally,
    sections: Distinct,
}

impl<'a> Writes<'a> {
    fn new(runs: Runs<'a>, number: u64) -> Self {
        let dirt = Dirts::new(runs.seed.wrapping_add(number));
        let (memory, read) = (Memory::new(), ReadMemory::new());
        Writes { runs, memory, read, dirt, tally: Tally::default(), sections: Distinct::default() }
    }

    /// A rig of few bones, and others made from it.
    fn seed(&mut self, seed: u64) -> Result<(), Difference> {
        let mut rng = Rng::new(!seed);
        let bones = few_bones(&mut rng);
        let mut names = Names::spread(&mut rng, &bones);
        if rng.one_in(12) {
            names.spoil(&mut rng);
        }
        let (table, n) = (rows::placed_bones(&bones, &names.places), bones.len());
        let free = [0; 4].map(|_: u32| rng.next() as u32);
        let mut input = WriteInput { bones: table.clone(), n, names: names.halves, free, room: [0; 7], out: 0, dirt: seed };
        for i in 0..RIGS {
            if i > 0 {
                input.bones.clone_from(&table);
                input.free[rng.below(4)] = rng.next() as u32;
                input.n = if rng.one_in(8) { rng.below(n + 1) } else { n };
                if n > 0 {
                    change_rows(&mut input.bones, &mut rng);
                }
            }
            self.rig(&mut input, &mut rng, seed)?;
        }
        Ok(())
    }

    /// The bones in all that they want, with the round trip, and in other lent sizes.
    fn rig(&mut self, input: &mut WriteInput, rng: &mut Rng, seed: u64) -> Result<(), Difference> {
        (input.room, input.out) = ([0; 7], 0);
        let section = input.section();
        input.out = section.as_ref().map_or(0, Vec::len);
        self.write(input, &section, seed)?;
        if let Ok(bytes) = &section {
            let mut hash = Hash::new(0);
            hash.bytes(bytes);
            self.sections.add(hash);
            self.round_trip(input, bytes, seed)?;
        }
        let (n, rows) = (input.n, input.bones.len());
        match rng.below(6) {
            0 => input.room = input.room.map(|_| if rng.one_in(8) { -1 - rng.below(3) as isize } else { rng.below(20) as isize }),
            1 => input.room[rng.below(7)] = -1,
            2 => input.out = rng.pick(&[input.out.saturating_sub(1), input.out / 2, 0]),
            3 => input.out += 1 + rng.below(40),
            4 => input.bones.truncate(rows.saturating_sub(1 + rng.below(30))),
            _ => (input.n, input.room) = (rng.pick(&[n + 1, MOST, MOST + 1, usize::MAX]), [isize::MIN; 7]),
        }
        let known = input.section_known(&section);
        self.write(input, &known, seed)
    }

    fn write(&mut self, input: &WriteInput, section: &Published, seed: u64) -> Result<(), Difference> {
        let given = self.memory.write(self.runs.library, input, &mut self.dirt);
        let (known, count) = input.status(section);
        self.tally.count("write", status(known));
        if given == known && self.memory.holds(input, count, section) {
            return Ok(());
        }
        let runs = self.runs.with(seed);
        let again = runs.write_known(&mut Tally::default(), input, section);
        Err(found(&runs.place("writes"), input, again))
    }

    /// What was written is read back by our reader, as the Rust reads it; its bones are those written; and these, written again
    /// with the section lent as the bytes of their names, give the same section.
    fn round_trip(&mut self, input: &WriteInput, bytes: &[u8], seed: u64) -> Result<(), Difference> {
        let section = Section::written(bytes.to_vec());
        let asked = Asked::of(&section);
        let (left, lengths) = (Left::of(&asked), asked.exact());
        self.read.halves.again(&section);
        let given = self.read.read(self.runs.library, section.root, &lengths, &mut self.dirt);
        let runs = self.runs.with(seed);
        if given != asked.status(&lengths) || !self.read.holds(&section, given, &left) {
            let input = ReadInput { section, lengths, dirt: seed };
            let again = runs.read(&mut Tally::default(), &input, &asked);
            return Err(found(&runs.place("writes"), &input, again));
        }
        let Some(rows) = left.rows().filter(|rows| given == DONE && same_bones(input, rows, &section)) else {
            return Err(store(&runs.place("writes"), format!("{}other bones are read back\n", input.text())));
        };
        let (bones, names) = (rows.words[0].clone(), [section.system, Vec::new()]);
        let again = WriteInput { bones, names, room: [0; 7], out: bytes.len(), ..input.clone() };
        self.write(&again, &Ok(bytes.to_vec()), seed)?;
        self.tally.count("round trip", "equal");
        Ok(())
    }
}

/// Whether the bones read are those written: every field, the kept words and the name's bytes, no name and an empty one being two.
fn same_bones(input: &WriteInput, read: &ReadRows, section: &Section) -> bool {
    let written = &input.bones[..rows::BONE * input.n];
    let [lent, stored] = [NameBytes::new(&input.names[0], &input.names[1]), NameBytes::new(&section.system, &section.graphics)];
    let same_name = |a: Place, b: Place| match (a.address, b.address) {
        (0, address) | (address, 0) => address == 0,
        _ => lent.at(a.address, a.size as usize).is_some_and(|name| stored.at(b.address, b.size as usize) == Some(name)),
    };
    let same = |(a, b): (&[u32], &[u32])| {
        a[..12] == b[..12] && a[12] as u16 == b[12] as u16 && a[13..17] == b[13..17] && same_name(Place::of(a), Place::of(b))
    };
    written.len() == read.words[0].len() && written.chunks(rows::BONE).zip(read.words[0].chunks(rows::BONE)).all(same)
}

/// Whether it is noticed that a word of a table or the count, a byte of the buffer behind the section, a guard, a bone or a name was
/// touched, and that other bones are read back.
pub fn touches_are_noticed(library: &dyn Skeletons) -> bool {
    let bones = cases::trial::control_rig();
    let names = Names::spread(&mut Rng::new(1), &bones);
    let table = rows::placed_bones(&bones, &names.places);
    let (mut input, section) = WriteInput::exact(table, bones.len(), names.halves, [1, 2, 3, 4], 1);
    (input.room, input.out) = ([2; 7], input.out + 2);
    let (known, count) = input.status(&section);
    assert_eq!(known, DONE, "bones that can be written");
    let (mut memory, mut dirt) = (Memory::new(), Dirts::new(1));
    let mut noticed = |touch: &dyn Fn(&mut Memory, usize) -> bool| {
        (0..)
            .map_while(|at| {
                let right = memory.write(library, &input, &mut dirt) == DONE && memory.holds(&input, count, &section);
                let touched = touch(&mut memory, at);
                touched.then(|| right && !memory.holds(&input, count, &section))
            })
            .all(|noticed| noticed)
    };
    let touches = (0..7).all(|table| noticed(&|memory, at| memory.tables.touch(table, at)))
        && (0..2).all(|half| noticed(&|memory, at| memory.names.touch(half, at)))
        && noticed(&|memory, at| memory.bones.touch(at))
        && noticed(&|memory, at| memory.free.touch(at))
        && noticed(&|memory, at| memory.out.touch(at))
        && noticed(&|memory, at| memory.count.touch(at));
    let written = Section::written(section.expect("a section"));
    let rows = |change: usize, by: u32| {
        let mut read = ReadRows::of(Asked::of(&written).left().expect("a reading").1);
        read.words[0][change] ^= by;
        read
    };
    let fields = (0..rows::BONE).filter(|&word| ![18, 20].contains(&word));
    touches
        && same_bones(&input, &rows(0, 0), &written)
        && fields.into_iter().all(|word| !same_bones(&input, &rows(word, 1), &written))
}
