//! The setters of a matrix: our library against the published Rust, every word of the matrix compared.

use crate::difference::{compare, Difference, Input, Place};
use crate::extent::Extent;
use crate::lent::Lent;
use cases::words::{words, Temper, SPECIAL};
use cases::Rng;
use link::Setters;
use oracle::{set_column4, set_scale_vector, Matrix};
use std::path::Path;

/// A call: the matrix, and the vector that it is set by.
#[derive(Clone)]
enum Call {
    ScaleVector(Matrix, [u32; 3]),
    Column4(Matrix, [u32; 4]),
}
use Call::*;

impl Call {
    /// The words lent: the matrix's, then the vector's.
    fn words(&self) -> Vec<u32> {
        match self {
            ScaleVector(m, s) => [&m[..], s].concat(),
            Column4(m, v) => [&m[..], v].concat(),
        }
    }

    /// The same call on other words.
    fn on(&self, words: &[u32]) -> Call {
        let (m, vector) = words.split_at(16);
        let m = m.try_into().expect("sixteen words");
        match self {
            ScaleVector(..) => ScaleVector(m, vector.try_into().expect("three words")),
            Column4(..) => Column4(m, vector.try_into().expect("four words")),
        }
    }
}

impl Input for Call {
    fn smaller(&self) -> impl Iterator<Item = Self> {
        (0..self.words().len()).filter_map(|at| {
            let mut words = self.words();
            (std::mem::take(&mut words[at]) != 0).then(|| self.on(&words))
        })
    }

    fn text(&self) -> String {
        let call = if matches!(self, ScaleVector(..)) { "set_scale_vector" } else { "set_column4" };
        let line = |name: &str, words: &[u32]| format!("{name}{}\n", words.iter().map(|w| format!(" {w:x}")).collect::<String>());
        let words = self.words();
        format!("{call}\n{}{}", line("matrix", &words[..16]), line("vector", &words[16..]))
    }
}

/// The matrix after the call; whether the vector and the guards are as they were.
fn ours(library: &dyn Setters, call: &Call) -> (Vec<u32>, bool) {
    let words = call.words();
    let (mut matrix, mut vector, mut intact) = (Lent::of(&words[..16]), Lent::of(&words[16..]), true);
    match call {
        ScaleVector(..) => library.set_scale_vector(matrix.array(), vector.array()),
        Column4(..) => library.set_column4(matrix.array(), vector.array()),
    }
    vector.kept(&words[16..], &mut intact);
    (matrix.back(&mut intact), intact)
}

fn rust(call: &Call) -> (Vec<u32>, bool) {
    let set = match call {
        ScaleVector(m, s) => set_scale_vector(m, *s),
        Column4(m, v) => set_column4(m, *v),
    };
    (set.to_vec(), true)
}

/// Each special word alone at each place, each two of them for all of the matrix and all of the vector, then random
/// words. Gives the number of calls.
pub fn run(library: &dyn Setters, folder: &Path, seed: u64, extent: Extent) -> Result<u64, Difference> {
    let mut rng = Rng::new(seed);
    let mut calls = 0;
    let mut both = |words: [u32; 20]| {
        let m = words[..16].try_into().expect("sixteen words");
        [ScaleVector(m, [words[16], words[17], words[18]]), Column4(m, [words[16], words[17], words[18], words[19]])]
            .iter()
            .try_for_each(|call| {
                calls += 1;
                compare(&Place { folder, name: "setters", seed }, call, |c| ours(library, c), rust).map(drop)
            })
    };
    let numbered: [u32; 20] = std::array::from_fn(|i| (i as f32 + 1.0).to_bits());
    for special in SPECIAL {
        for at in 0..20 {
            let mut words = numbered;
            words[at] = special;
            both(words)?;
        }
        for other in SPECIAL {
            both(std::array::from_fn(|i| if i < 16 { special } else { other }))?;
        }
    }
    for _ in 0..extent.of([300, 200_000, 4_000_000]) {
        let temper = Temper::draw(&mut rng);
        both(words(&mut rng, temper))?;
    }
    Ok(calls)
}
