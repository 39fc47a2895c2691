//! Which joints are compared.

use super::read::{self, ReadInput};
use super::write::{self, WriteInput};
use crate::difference::{compare, Difference, Input, Place};
use crate::extent::Extent;
use crate::lent::Lent;
use crate::share::share;
use crate::tally::{status, Tally};
use cases::joints::{damaged, good};
use cases::limits::{rotation_limit, rotation_row, translation_limit, translation_row, IDS};
use cases::records::joints as j;
use cases::{rows, units, Rng, Section};
use link::{Joints, DONE};
use oracle::{fresh_rotation_limit, joints_write, GRAPHICS_BASE, SYSTEM_BASE};
use std::path::Path;

/// Compares reading and writing, of joints and of one limit, and the fresh limit; gives how often each status came.
pub fn run(library: &dyn Joints, folder: &Path, seed: u64, extent: Extent, threads: u64) -> Result<Tally, Difference> {
    let runs = Runs { library, folder, seed };
    let mut tally = Tally::default();
    runs.fresh(&mut tally)?;
    runs.counts(&mut tally)?;
    runs.ids(&mut tally)?;
    runs.limits(&mut tally)?;
    if extent > Extent::Test {
        runs.greatest(&mut tally)?;
    }
    let with = |seed: u64| Runs { seed, ..runs };
    let cut = extent.of([3, 20, 400]);
    tally.merge(&share(seed, cut, threads, |tally, seed| with(seed).truncations(tally))?);
    let sections = extent.of([400, 50_000, 1_000_000]);
    tally.merge(&share(seed, sections, threads, |tally, seed| with(seed).random(tally))?);
    let limits = extent.of([400, 100_000, 3_000_000]);
    tally.merge(&share(seed, limits, threads, |tally, seed| with(seed).drawn_limits(tally))?);
    Ok(tally)
}

/// The one input of a call without any.
#[derive(Clone)]
struct Nothing;

impl Input for Nothing {
    fn smaller(&self) -> impl Iterator<Item = Self> {
        std::iter::empty()
    }

    fn text(&self) -> String {
        String::new()
    }
}

pub(super) struct Runs<'a> {
    pub(super) library: &'a dyn Joints,
    folder: &'a Path,
    pub(super) seed: u64,
}

impl Runs<'_> {
    pub(super) fn place<'a>(&'a self, name: &'a str) -> Place<'a> {
        Place { folder: self.folder, name, seed: self.seed }
    }

    fn read(&self, tally: &mut Tally, input: &ReadInput) -> Result<(), Difference> {
        let answer = compare(&self.place("joints_read"), input, |i| read::ours(self.library, i), read::rust)?;
        tally.count("joints read", status(answer.status));
        count_limits(tally, ["rotation, read", "translation, read"], answer.limits());
        Ok(())
    }

    fn write(&self, tally: &mut Tally, input: &WriteInput) -> Result<(), Difference> {
        let answer = compare(&self.place("joints_write"), input, |i| write::ours(self.library, i), write::rust)?;
        tally.count("joints write", status(answer.status));
        let written = if answer.status == DONE { [input.r, input.t] } else { [0, 0] };
        count_limits(tally, ["rotation, written", "translation, written"], written.map(|n| n as u64));
        Ok(())
    }

    fn fresh(&self, tally: &mut Tally) -> Result<(), Difference> {
        let ours = |_: &Nothing| {
            let (mut row, mut intact) = (Lent::<u32>::dirty(rows::ROTATION, &mut Rng::new(self.seed)), true);
            self.library.fresh_rotation_limit(row.array());
            (row.back::<u32>(&mut intact), intact)
        };
        compare(&self.place("fresh_limit"), &Nothing, ours, |_| (rows::rotation(&fresh_rotation_limit()).to_vec(), true))?;
        tally.count("fresh limit", "done");
        Ok(())
    }

    /// Counts of 0 and 65,535 at pointers that are 0, good, the end, past it and in neither half.
    fn counts(&self, tally: &mut Tally) -> Result<(), Difference> {
        let behind = SYSTEM_BASE + j::SIZE as u64;
        let pointers = [0, behind, behind + 256, behind + 257, 1, GRAPHICS_BASE, GRAPHICS_BASE + 5, 0x7000_0000, u64::MAX];
        for rotations in pointers {
            for translations in pointers {
                for (r, t) in [(0, 0), (1, 1), (0, 65_535), (65_535, 0), (65_535, 65_535)] {
                    let system = [units::joints(rotations, translations, r, t), vec![7; 256]].concat();
                    let section = Section { graphics: vec![9; 5], ..Section::written(system) };
                    for (rotation, translation) in [(rows::ROTATION, rows::TRANSLATION), (0, 0)] {
                        self.read(tally, &ReadInput { section: section.clone(), rotation, translation, dirt: self.seed })?;
                    }
                }
            }
        }
        Ok(())
    }

    /// Ids at the bounds in each row of either table, those behind the rows asked for among them: where nothing else is wrong, a
    /// list is too long, a table has too few rows or lacks a word, and the buffer is too short.
    fn ids(&self, tally: &mut Tally) -> Result<(), Difference> {
        const ROWS: usize = 4;
        let mut rng = Rng::new(self.seed);
        let rotation: Vec<u32> = (0..ROWS).flat_map(|_| rows::rotation(&rotation_limit(&mut rng))).collect();
        let translation: Vec<u32> = (0..ROWS).flat_map(|_| rows::translation(&translation_limit(&mut rng))).collect();
        let asked = [(3, 3), (4, 4), (1, 0), (5, 3), (3, 5), (65_535, 3), (65_536, 3), (3, 65_535), (3, 65_536)];
        for (id, row) in IDS.into_iter().flat_map(|id| (0..ROWS).map(move |row| (id, row))) {
            let (mut with_id, mut wide_translation) = (rotation.clone(), translation.clone());
            (with_id[rows::ROTATION * row], wide_translation[rows::TRANSLATION * row]) = (id, id);
            for (rotation, translation) in [(&with_id, &translation), (&rotation, &wide_translation)] {
                for ((r, t), lacks) in asked.into_iter().flat_map(|asked| [(asked, 0), (asked, 1)]) {
                    let rotation = &rotation[..rotation.len() - lacks];
                    let length = length(r.min(ROWS), t.min(ROWS));
                    for out in [length, length - 1, 0, length + 9] {
                        let (rotation, translation) = (rotation.to_vec(), translation.clone());
                        self.write(tally, &WriteInput { rotation, r, translation, t, out, dirt: self.seed })?;
                    }
                }
            }
        }
        Ok(())
    }

    /// 65,535 limits of each kind, written and read; 65,536 of either are 6. No id is above 65,535, then that of the last rotation
    /// limit, then that of the row behind it.
    fn greatest(&self, tally: &mut Tally) -> Result<(), Difference> {
        const MOST: usize = 65_535;
        let mut rng = Rng::new(self.seed);
        let rotations: Vec<_> = (0..=MOST).map(|_| rotation_limit(&mut rng)).collect();
        let translations: Vec<_> = (0..=MOST).map(|_| translation_limit(&mut rng)).collect();
        let rotation: Vec<u32> = rotations.iter().flat_map(rows::rotation).collect();
        let translation: Vec<u32> = translations.iter().flat_map(rows::translation).collect();
        for wide in [None, Some(MOST - 1), Some(MOST)] {
            let mut rotation = rotation.clone();
            wide.into_iter().for_each(|row: usize| rotation[rows::ROTATION * row] = 65_536);
            for (r, t) in [(MOST, MOST), (MOST + 1, 0), (0, MOST + 1), (MOST + 1, MOST + 1)] {
                let (rotation, translation) = (rotation.clone(), translation.clone());
                self.write(tally, &WriteInput { rotation, r, translation, t, out: length(r, t), dirt: self.seed })?;
            }
        }
        let section = Section::written(joints_write(&rotations[..MOST], &translations[..MOST]).section());
        let (rotation, translation) = (rows::ROTATION * MOST, rows::TRANSLATION * MOST);
        for (rotation, translation) in [(rotation, translation), (rotation - 1, translation), (rotation, translation - 1)] {
            self.read(tally, &ReadInput { section: section.clone(), rotation, translation, dirt: self.seed })?;
        }
        Ok(())
    }

    /// Every truncation of either half of a good section.
    fn truncations(&self, tally: &mut Tally) -> Result<(), Difference> {
        let whole = good(&mut Rng::new(self.seed));
        for section in whole.truncations() {
            let (rotation, translation) = (rows::ROTATION * 3, rows::TRANSLATION * 3);
            self.read(tally, &ReadInput { section, rotation, translation, dirt: self.seed })?;
        }
        Ok(())
    }

    /// A good section, a damaged one and two lists to write.
    fn random(&self, tally: &mut Tally) -> Result<(), Difference> {
        let mut rng = Rng::new(self.seed);
        for section in [good(&mut rng), damaged(self.seed).section] {
            let rows = |field: usize| (section.count(field) as usize).min(4);
            let rotation = words(&mut rng, rows::ROTATION * rows(j::ROTATION_COUNT), rows::ROTATION);
            let translation = words(&mut rng, rows::TRANSLATION * rows(j::TRANSLATION_COUNT), rows::TRANSLATION);
            self.read(tally, &ReadInput { section, rotation, translation, dirt: rng.next() })?;
        }
        self.write(tally, &written(&mut rng))
    }
}

/// Counts the limits of each kind in lists that were read or written.
fn count_limits(tally: &mut Tally, names: [&'static str; 2], limits: [u64; 2]) {
    names.into_iter().zip(limits).for_each(|(name, n)| tally.add("limits in lists", name, n));
}

/// The bytes of a section of so many limits.
fn length(r: usize, t: usize) -> usize {
    j::SIZE + j::ROTATION_LIMIT * r + j::TRANSLATION_LIMIT * t
}

/// So many words, or some more, or too few; `width` is a row's.
fn words(rng: &mut Rng, exact: usize, width: usize) -> usize {
    match rng.below(8) {
        0 => exact.saturating_sub(1),
        1 => exact.saturating_sub(width),
        2 => exact + 1 + rng.below(width),
        3 => rng.below(2 * width),
        _ => exact,
    }
}

/// Two lists in tables, now and then with wide ids, more asked for than there are, or a buffer that is too short.
fn written(rng: &mut Rng) -> WriteInput {
    let mut rotation: Vec<u32> = (0..rng.below(4)).flat_map(|_| rotation_row(rng)).collect();
    let mut translation: Vec<u32> = (0..rng.below(4)).flat_map(|_| translation_row(rng)).collect();
    let (mut r, mut t) = (rotation.len() / rows::ROTATION, translation.len() / rows::TRANSLATION);
    match rng.below(8) {
        0 => rotation.resize(words(rng, rotation.len(), rows::ROTATION), rng.next() as u32),
        1 => translation.resize(words(rng, translation.len(), rows::TRANSLATION), rng.next() as u32),
        2 => r = rng.below(r + 2),
        3 => t = rng.below(t + 2),
        4 if rng.one_in(4) => r = rng.pick(&[65_535, 65_536, 1 << 32, 1 << 60, usize::MAX]),
        4 if rng.one_in(4) => t = rng.pick(&[65_535, 65_536, 1 << 32, 1 << 60, usize::MAX]),
        _ => {}
    }
    let length = length(r.min(4), t.min(4));
    let out = match rng.below(8) {
        0 => length - 1,
        1 => rng.below(length),
        2 => length + rng.below(100),
        _ => length,
    };
    WriteInput { rotation, r, translation, t, out, dirt: rng.next() }
}
