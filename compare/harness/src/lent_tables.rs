//! What a reading and a derivation are lent: the two halves of a section, and dirty tables, all between guards.

use crate::lent::{Dirt, Lent};
use cases::{Rng, Section};
use link::{Halves, ReadTables, WriteTables};

/// Dirt for the memory that is lent again and again.
pub struct Dirts {
    pub bytes: Dirt<u8>,
    pub shorts: Dirt<u16>,
    pub words: Dirt<u32>,
    pub longs: Dirt<u64>,
    pub sizes: Dirt<usize>,
    pub rng: Rng,
}

impl Dirts {
    pub fn new(seed: u64) -> Self {
        let mut rng = Rng::new(seed);
        Dirts {
            bytes: Dirt::new(&mut rng),
            shorts: Dirt::new(&mut rng),
            words: Dirt::new(&mut rng),
            longs: Dirt::new(&mut rng),
            sizes: Dirt::new(&mut rng),
            rng,
        }
    }
}

/// The two halves, lent for reading.
pub struct LentSection<'a> {
    was: &'a Section,
    halves: [Lent<u8>; 2],
}

impl<'a> LentSection<'a> {
    pub fn of(was: &'a Section) -> Self {
        LentSection { was, halves: [&was.system, &was.graphics].map(|half| Lent::of(half)) }
    }

    pub fn halves(&mut self) -> Halves<'_> {
        let [system, graphics] = self.halves.each_mut().map(|half| &*half.slice());
        Halves { system, graphics }
    }

    /// `intact` ends where a half is no more what it was, or a guard was touched.
    pub fn kept(self, intact: &mut bool) {
        let [system, graphics] = self.halves;
        system.kept(&self.was.system, intact);
        graphics.kept(&self.was.graphics, intact);
    }
}

/// The two halves of one section after the other, lent for reading in the same memory.
pub struct LentHalves([Lent<u8>; 2]);

impl LentHalves {
    pub fn new() -> Self {
        LentHalves([(); 2].map(|()| Lent::of(&[])))
    }

    pub fn again(&mut self, section: &Section) {
        self.of([&section.system, &section.graphics]);
    }

    pub fn of(&mut self, halves: [&[u8]; 2]) {
        self.0.iter_mut().zip(halves).for_each(|(lent, half)| lent.again(half));
    }

    pub fn halves(&mut self) -> Halves<'_> {
        let [system, graphics] = self.0.each_mut().map(|half| &*half.slice());
        Halves { system, graphics }
    }

    /// Whether both halves are what they were, and their guards too.
    pub fn are_still(&mut self, was: [&[u8]; 2]) -> bool {
        self.0.iter_mut().zip(was).all(|(lent, half)| lent.is_still(half))
    }

    pub fn touch(&mut self, half: usize, at: usize) -> bool {
        self.0[half].touch(at)
    }
}

/// The rows that a reading leaves, 16-bit words as such.
pub struct ReadRows {
    pub words: [Vec<u32>; 5],
    pub shorts: [Vec<u16>; 2],
}

impl ReadRows {
    /// Of all tables but the pool, 16-bit words widened.
    pub fn of(tables: [Vec<u32>; 7]) -> Self {
        let [bones, buckets, entries, inverse, local, parents, children] = tables;
        let shorts = [parents, children].map(|table| table.iter().map(|&word| word as u16).collect());
        ReadRows { words: [bones, buckets, entries, inverse, local], shorts }
    }
}

/// The tables of a reading, in the order of `cases::tables`.
pub struct LentReading {
    words: [Lent<u32>; 5],
    shorts: [Lent<u16>; 2],
    pool: Lent<u64>,
}

impl LentReading {
    pub fn dirty(lengths: &[usize; 8], rng: &mut Rng) -> Self {
        let [bones, buckets, entries, inverse, local, parents, children, pool] = *lengths;
        LentReading {
            words: [bones, buckets, entries, inverse, local].map(|length| Lent::dirty(length, rng)),
            shorts: [parents, children].map(|length| Lent::dirty(length, rng)),
            pool: Lent::dirty(pool, rng),
        }
    }

    /// Lends dirty tables of these lengths in the same memory.
    pub fn again(&mut self, lengths: &[usize; 8], dirt: &mut Dirts) {
        let Dirts { shorts, words, longs, rng, .. } = dirt;
        self.words.iter_mut().zip(lengths).for_each(|(table, &length)| table.again(words.part(length, rng)));
        self.shorts.iter_mut().zip(&lengths[5..]).for_each(|(table, &length)| table.again(shorts.part(length, rng)));
        self.pool.again(longs.part(lengths[7], rng));
    }

    /// Whether the tables hold these rows, zeros behind them, or zeros alone, the pool zeros, and all guards are as they were.
    pub fn hold(&mut self, rows: Option<&ReadRows>) -> bool {
        let words = |table: usize| rows.map_or(&[][..], |rows| &rows.words[table]);
        let shorts = |table: usize| rows.map_or(&[][..], |rows| &rows.shorts[table]);
        (0..5).all(|table| self.words[table].holds(words(table)))
            && (0..2).all(|table| self.shorts[table].holds(shorts(table)))
            && self.pool.holds(&[])
    }

    pub fn touch(&mut self, table: usize, at: usize) -> bool {
        match table {
            0..5 => self.words[table].touch(at),
            5..7 => self.shorts[table - 5].touch(at),
            _ => self.pool.touch(at),
        }
    }

    pub fn tables(&mut self) -> ReadTables<'_> {
        let [bones, buckets, entries, inverse, local] = self.words.each_mut().map(Lent::slice);
        let [parents, children] = self.shorts.each_mut().map(Lent::slice);
        ReadTables { bones, buckets, entries, inverse, local, parents, children, pool: self.pool.slice() }
    }

    /// What the tables hold after the call, 16-bit words widened, and the pool.
    pub fn back(self, intact: &mut bool) -> ([Vec<u32>; 7], Vec<u64>) {
        let [bones, buckets, entries, inverse, local] = self.words.map(|table| table.back(intact));
        let [parents, children] = self.shorts.map(|table| table.back(intact));
        ([bones, buckets, entries, inverse, local, parents, children], self.pool.back(intact))
    }
}

/// The tables of the derivations: buckets, entries, inverse, local, parents, children, pending.
pub struct LentDerived {
    words: [Lent<u32>; 5],
    shorts: [Lent<u16>; 2],
}

impl LentDerived {
    /// The places of the tables of words and of 16-bit words among all.
    const WORDS: [usize; 5] = [0, 1, 2, 3, 6];
    const SHORTS: [usize; 2] = [4, 5];

    pub fn dirty(lengths: &[usize; 7], rng: &mut Rng) -> Self {
        LentDerived {
            words: Self::WORDS.map(|table| Lent::dirty(lengths[table], rng)),
            shorts: Self::SHORTS.map(|table| Lent::dirty(lengths[table], rng)),
        }
    }

    /// Lends dirty tables of these lengths in the same memory.
    pub fn again(&mut self, lengths: &[usize; 7], dirt: &mut Dirts) {
        let Dirts { shorts, words, rng, .. } = dirt;
        self.words.iter_mut().zip(Self::WORDS).for_each(|(table, at)| table.again(words.part(lengths[at], rng)));
        self.shorts.iter_mut().zip(Self::SHORTS).for_each(|(table, at)| table.again(shorts.part(lengths[at], rng)));
    }

    /// Whether the tables are zero and all guards are as they were.
    pub fn are_zero(&mut self) -> bool {
        self.words.iter_mut().all(|table| table.holds(&[])) && self.shorts.iter_mut().all(|table| table.holds(&[]))
    }

    pub fn touch(&mut self, table: usize, at: usize) -> bool {
        match table {
            0..5 => self.words[table].touch(at),
            _ => self.shorts[table - 5].touch(at),
        }
    }

    pub fn tables(&mut self) -> WriteTables<'_> {
        let [buckets, entries, inverse, local, pending] = self.words.each_mut().map(Lent::slice);
        let [parents, children] = self.shorts.each_mut().map(Lent::slice);
        WriteTables { buckets, entries, inverse, local, parents, children, pending }
    }

    /// What the tables hold after the call, 16-bit words widened.
    pub fn back(self, intact: &mut bool) -> Vec<Vec<u32>> {
        let [buckets, entries, inverse, local, pending] = self.words.map(|table| table.back(intact));
        let [parents, children] = self.shorts.map(|table| table.back(intact));
        vec![buckets, entries, inverse, local, parents, children, pending]
    }
}
