//! One reading of a skeleton.

use crate::difference::Input;
use crate::lent::Lent;
use crate::lent_tables::{LentReading, LentSection};
use cases::{tables, Rng, Section};
use link::{SkeletonFields, Skeletons, DONE, NONE};
use oracle::{read_rows, Answer, Reading, Rows};

/// A section and the words of each lent table, in the order of `cases::tables`.
#[derive(Clone)]
pub struct ReadInput {
    pub section: Section,
    pub lengths: [usize; 8],
    /// The seed of what the tables hold at entry.
    pub dirt: u64,
}

/// What the published reading gives, and the rows that it uses.
pub struct Asked {
    pub answer: Answer,
    rows: Rows,
}

impl Asked {
    pub fn of(s: &Section) -> Self {
        let (answer, rows) = read_rows(&s.system, &s.graphics, s.root);
        Asked { answer, rows }
    }

    /// The words of the rows that reading uses.
    pub fn exact(&self) -> [usize; 8] {
        tables::exact(&self.rows)
    }

    /// The status in tables of these lengths: 1 where it uses more rows of one of them than there are.
    pub fn status(&self, lengths: &[usize; 8]) -> u32 {
        let used = tables::used(&self.rows);
        let short = (0..8).any(|table| lengths[table] / tables::WIDTHS[table] < used[table]);
        match &self.answer {
            Answer::None => NONE,
            _ if short => 1,
            Answer::Refused(number) => *number as u32,
            Answer::Read(_) => DONE,
        }
    }

    /// The fields and the rows of a reading that is done.
    pub fn left(&self) -> Option<(SkeletonFields, [Vec<u32>; 7])> {
        let Answer::Read(reading) = &self.answer else { return None };
        Some((fields(reading), tables::words(reading)))
    }

    /// The reading in tables of these lengths.
    pub fn lent(&self, lengths: &[usize; 8]) -> ReadAnswer {
        let status = self.status(lengths);
        let (fields, mut words) = self.left().filter(|_| status == DONE).unwrap_or_default();
        words.iter_mut().zip(lengths).for_each(|(table, &length)| table.resize(length, 0));
        ReadAnswer { status, fields: fields.to_vec(), tables: words, pool: vec![0; lengths[7]], intact: true }
    }
}

impl ReadInput {
    /// With tables of just the rows that reading uses; what it gives, too.
    pub fn exact(section: Section, dirt: u64) -> (Self, Asked) {
        let asked = Asked::of(&section);
        (ReadInput { section, lengths: asked.exact(), dirt }, asked)
    }

    /// With so many words more or fewer in one table.
    pub fn with(&self, table: usize, words: isize) -> Self {
        let mut lengths = self.lengths;
        lengths[table] = lengths[table].saturating_add_signed(words);
        ReadInput { lengths, ..self.clone() }
    }
}

impl Input for ReadInput {
    fn smaller(&self) -> impl Iterator<Item = Self> {
        let was = Asked::of(&self.section).exact();
        // each table as much longer or shorter than it must be as it was
        let sections = self.section.smaller().map(move |section| {
            let now = Asked::of(&section).exact();
            let lengths = std::array::from_fn(|t| (self.lengths[t] + now[t]).saturating_sub(was[t]));
            ReadInput { section, lengths, dirt: self.dirt }
        });
        let shorter =
            (0..8).flat_map(move |t| [was[t], 0].into_iter().filter(move |&l| l < self.lengths[t]).map(move |l| (t, l)));
        sections.chain(shorter.map(|(t, length)| self.with(t, length as isize - self.lengths[t] as isize)))
    }

    fn text(&self) -> String {
        let words: String = tables::NAMES.iter().zip(self.lengths).map(|(name, length)| format!(" {name} {length}")).collect();
        format!("{}words of the tables:{words}\ndirt {}\n", self.section.text(), self.dirt)
    }
}

/// What came back, and every word lent afterwards.
#[derive(Debug, PartialEq, Eq)]
pub struct ReadAnswer {
    pub status: u32,
    pub fields: Vec<usize>,
    /// All tables but the pool, 16-bit words widened.
    pub tables: [Vec<u32>; 7],
    pool: Vec<u64>,
    /// Both halves and the guards are as they were.
    intact: bool,
}

/// Makes the call on dirty tables between guards.
pub fn ours(library: &dyn Skeletons, i: &ReadInput) -> ReadAnswer {
    let (mut rng, mut intact) = (Rng::new(i.dirt), true);
    let (mut section, mut lent) = (LentSection::of(&i.section), LentReading::dirty(&i.lengths, &mut rng));
    let mut fields = Lent::<usize>::dirty(20, &mut rng);
    let status = library.read(section.halves(), i.section.root, lent.tables(), fields.array());
    section.kept(&mut intact);
    let (tables, pool) = lent.back(&mut intact);
    ReadAnswer { status, fields: fields.back(&mut intact), tables, pool, intact }
}

/// The published reading in the tables that are lent.
pub fn rust(i: &ReadInput) -> ReadAnswer {
    Asked::of(&i.section).lent(&i.lengths)
}

/// What our library tells of a reading.
pub fn fields(r: &Reading) -> SkeletonFields {
    fn list<T>(list: &Option<Vec<T>>, words: usize) -> [usize; 2] {
        list.as_ref().map_or([0, 0], |items| [1, words * items.len()])
    }
    let [x, y, z, w] = r.free;
    let stored = [r.kind, x, y, z, w, r.bucket_count as u32, r.bone_count as u32, r.child_count as u32];
    let matrix = cases::rows::MATRIX;
    let lists = [
        list(&r.buckets, 1),
        list(&r.bones, 1),
        list(&r.inverse, matrix),
        list(&r.local, matrix),
        list(&r.parents, 1),
        list(&r.children, 1),
    ];
    let all: Vec<usize> = stored.iter().map(|&w| w as usize).chain(lists.into_iter().flatten()).collect();
    all.try_into().expect("twenty fields")
}
