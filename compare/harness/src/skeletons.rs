//! Skeletons: reading and writing of our library against the published Rust, every lent word and byte compared.

pub mod read;
mod reading;
mod shown;
pub mod write;
mod writing;

use crate::difference::{compare_known, Difference, Place};
use crate::extent::Extent;
use crate::tally::{status, Tally};
use cases::tables;
use link::Skeletons;
use read::{Asked, ReadAnswer, ReadInput};
use std::path::Path;
use write::{Published, WriteAnswer, WriteInput};

/// An error that names what never came: a status, or something that sections and names must show.
pub fn require_all(tally: &Tally) -> Result<(), String> {
    tally.require("read", &["done", "none", "1", "10", "11", "12", "13"])?;
    tally.require("read, too short", &tables::NAMES)?;
    tally.require("read with", &shown::READ)?;
    tally.require("write", &["done", "1", "2", "3", "4", "5"])?;
    tally.require("write with", &shown::NAMES)?;
    tally.require("written again", &["equal"])
}

/// Compares reading and writing; gives how often each status came, and what the sections read showed.
pub fn run(library: &dyn Skeletons, folder: &Path, seed: u64, extent: Extent, threads: u64) -> Result<Tally, Difference> {
    let runs = Runs { library, folder, seed };
    let mut tally = reading::run(runs, extent, threads)?;
    tally.merge(&writing::run(runs, extent, threads)?);
    Ok(tally)
}

/// A library to compare, where differences are stored, and a seed.
#[derive(Clone, Copy)]
pub struct Runs<'a> {
    pub library: &'a dyn Skeletons,
    pub folder: &'a Path,
    pub seed: u64,
}

impl<'a> Runs<'a> {
    pub fn with(self, seed: u64) -> Self {
        Runs { seed, ..self }
    }

    pub fn place(self, name: &'a str) -> Place<'a> {
        Place { folder: self.folder, name, seed: self.seed }
    }

    pub fn read(self, tally: &mut Tally, input: &ReadInput, asked: &Asked) -> Result<ReadAnswer, Difference> {
        let (place, known) = (self.place("skeleton_read"), asked.lent(&input.lengths));
        let answer = compare_known(&place, input, known, |i| read::ours(self.library, i), read::rust)?;
        tally.count("read", status(answer.status));
        Ok(answer)
    }

    fn write(self, tally: &mut Tally, input: &WriteInput) -> Result<WriteAnswer, Difference> {
        self.write_known(tally, input, &input.section())
    }

    pub fn write_known(self, tally: &mut Tally, input: &WriteInput, section: &Published) -> Result<WriteAnswer, Difference> {
        let (place, known) = (self.place("skeleton_write"), input.lent(section));
        let answer = compare_known(&place, input, known, |i| write::ours(self.library, i), write::rust)?;
        tally.count("write", status(answer.status));
        Ok(answer)
    }
}
