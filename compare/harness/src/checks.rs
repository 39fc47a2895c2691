//! Check, lookup and name search of our library against the published Rust, every lent word compared.

pub mod check;
mod ends;
mod hand;
pub mod lookup;
mod runs;
pub mod search;

use crate::difference::{compare_known, Difference, Place};
use crate::extent::Extent;
use crate::skeletons::read::Asked;
use crate::tally::{status, Tally};
use check::{CheckAnswer, CheckInput, Judged};
use link::{Checks, DONE};
use lookup::{LookupAnswer, LookupInput};
use search::{SearchAnswer, SearchInput};
use std::path::Path;

/// An error that names what never came.
pub fn require_all(tally: &Tally) -> Result<(), String> {
    let all: Vec<&str> = (0..check::TABLES).map(check::name).collect();
    tally.require("check", &["ok", "none", "1", "10", "11", "12", "13", "21", "22", "23", "24", "25"])?;
    tally.require("check, too short", &all)?;
    tally.require("check, 1 before", &["ok", "21", "22", "23", "24", "25"])?;
    tally.require("check, order of", &["1", "21", "22", "23", "24", "25", "ok"])?;
    tally.require("check, at the last item", &["21", "22", "23", "24", "25"])?;
    tally.require("lookup", &["done", "none", "10", "11", "14"])?;
    tally.require("lookup of all tags", &["damaged and accepted", "good"])?;
    tally.require("search", &["done", "none", "1", "10", "11", "12", "13"])
}

/// Compares all three; gives how often each answer came.
pub fn run(library: &dyn Checks, folder: &Path, seed: u64, extent: Extent, threads: u64) -> Result<Tally, Difference> {
    runs::run(Runs { library, folder, seed }, extent, threads)
}

/// The label of a status of the check.
pub fn check_label(number: u32) -> &'static str {
    if number == DONE {
        "ok"
    } else {
        status(number)
    }
}

/// A library to compare, where differences are stored, and a seed.
#[derive(Clone, Copy)]
pub struct Runs<'a> {
    pub library: &'a dyn Checks,
    pub folder: &'a Path,
    pub seed: u64,
}

impl<'a> Runs<'a> {
    pub fn with(self, seed: u64) -> Self {
        Runs { seed, ..self }
    }

    pub fn place(self, name: &'a str) -> Place<'a> {
        Place { folder: self.folder, name, seed: self.seed }
    }

    pub fn check(self, tally: &mut Tally, input: &CheckInput, judged: &Judged) -> Result<CheckAnswer, Difference> {
        let (place, known) = (self.place("check"), judged.lent(input));
        let answer = compare_known(&place, input, known, |i| check::ours(self.library, i), check::rust)?;
        tally.count("check", check_label(answer.status));
        Ok(answer)
    }

    fn lookup(self, tally: &mut Tally, input: &LookupInput) -> Result<(), Difference> {
        let answer = self.lookup_known(input, lookup::rust(input))?;
        tally.count("lookup", status(answer.status));
        Ok(())
    }

    fn lookup_known(self, input: &LookupInput, known: LookupAnswer) -> Result<LookupAnswer, Difference> {
        compare_known(&self.place("lookup"), input, known, |i| lookup::ours(self.library, i), lookup::rust)
    }

    fn search(self, tally: &mut Tally, input: &SearchInput, asked: &Asked) -> Result<SearchAnswer, Difference> {
        let (place, known) = (self.place("search"), search::wanted(asked, input));
        let answer = compare_known(&place, input, known, |i| search::ours(self.library, i), search::rust)?;
        tally.count("search", status(answer.status));
        Ok(answer)
    }
}
