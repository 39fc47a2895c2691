//! Comparing two answers on one input; a difference is shrunk and stored.

use crate::smaller::smaller_bytes;
use std::fmt::{self, Debug};
use std::fs;
use std::path::{Path, PathBuf};
use std::time::{Duration, Instant};

/// An input that can be made smaller and printed.
pub trait Input: Clone {
    /// Inputs one step smaller, the greatest steps first.
    fn smaller(&self) -> impl Iterator<Item = Self>;
    /// The input for a failure file, a field to a line.
    fn text(&self) -> String;
}

/// Where a difference is written and what it is called there.
pub struct Place<'a> {
    pub folder: &'a Path,
    pub name: &'a str,
    pub seed: u64,
}

/// A difference found; the smallest input is in `file`.
#[derive(Debug)]
pub struct Difference {
    pub name: String,
    pub seed: u64,
    pub file: PathBuf,
    pub text: String,
}

impl fmt::Display for Difference {
    fn fmt(&self, f: &mut fmt::Formatter<'_>) -> fmt::Result {
        let file = self.file.display();
        write!(f, "DIFFERENCE in {} (seed {}), smallest input in {file}:\n{:.4000}", self.name, self.seed, self.text)
    }
}

impl From<Difference> for String {
    fn from(d: Difference) -> String {
        d.to_string()
    }
}

/// The answer, where both sides give the same.
pub fn compare<I: Input, A: PartialEq + Debug>(
    place: &Place,
    input: &I,
    ours: impl Fn(&I) -> A,
    rust: impl Fn(&I) -> A,
) -> Result<A, Difference> {
    compare_known(place, input, rust(input), ours, rust)
}

/// As `compare`, where the Rust's answer on the input is known.
pub fn compare_known<I: Input, A: PartialEq + Debug>(
    place: &Place,
    input: &I,
    known: A,
    ours: impl Fn(&I) -> A,
    rust: impl Fn(&I) -> A,
) -> Result<A, Difference> {
    if ours(input) == known {
        return Ok(known);
    }
    let least = shrink(input, |i| ours(i) != rust(i));
    Err(store(place, format!("{}ours {:?}\nrust {:?}\n", least.text(), ours(&least), rust(&least))))
}

/// Stores a difference under the place's name.
pub fn store(place: &Place, text: String) -> Difference {
    fs::create_dir_all(place.folder).expect("the failures folder can be made");
    let file = place.folder.join(format!("{}-{}.txt", place.name, place.seed));
    fs::write(&file, &text).expect("the failure file can be written");
    Difference { name: place.name.into(), seed: place.seed, file, text }
}

/// How long smaller inputs are looked for.
const PATIENCE: Duration = Duration::from_secs(60);

/// Takes smaller inputs for as long as one of them still differs.
fn shrink<I: Input>(input: &I, differs: impl Fn(&I) -> bool) -> I {
    let (mut least, start) = (input.clone(), Instant::now());
    let patient = |_: &I| start.elapsed() < PATIENCE;
    loop {
        let next = least.smaller().take_while(patient).find(&differs);
        match next {
            Some(next) => least = next,
            None => return least,
        }
    }
}

pub fn hex(bytes: &[u8]) -> String {
    bytes.iter().map(|b| format!("{b:02x}")).collect()
}

impl Input for cases::Section {
    fn smaller(&self) -> impl Iterator<Item = Self> {
        let system = smaller_bytes(&self.system).map(|system| cases::Section { system, ..self.clone() });
        smaller_bytes(&self.graphics).map(|graphics| cases::Section { graphics, ..self.clone() }).chain(system)
    }

    fn text(&self) -> String {
        format!("root {:x}\nsystem {}\ngraphics {}\n", self.root, hex(&self.system), hex(&self.graphics))
    }
}
