//! The words of the command line.

use crate::extent::Extent;

/// What is to be run.
pub struct Options {
    pub long: bool,
    pub oracle_only: bool,
    /// What cannot be run is an error.
    pub required: bool,
    /// A small part of the comparison, each slice lent in a heap block of its own length.
    pub valgrind: bool,
    pub seed: u64,
    /// With `only`, the calls of that stage; else the damaged sections of the Rust alone.
    count: Option<u64>,
    pub threads: u64,
    /// A file for the stored sample; nothing else is run then.
    pub store: Option<String>,
    /// The comparison of our library that is run; nothing else is then.
    pub only: Option<String>,
}

/// The comparisons of our library.
const STAGES: [&str; 13] = [
    "fields",
    "cursor",
    "hash",
    "setters",
    "deriving",
    "joints",
    "skeletons",
    "hostile",
    "checks",
    "reads",
    "verdicts",
    "writes",
    "program",
];

/// Those that `--count` is for.
const COUNTED: [&str; 3] = ["reads", "verdicts", "writes"];

impl Options {
    pub fn parse(words: impl Iterator<Item = String>) -> Result<Options, String> {
        let (seed, count, threads) = (1_000_000, None, 0);
        let (store, only) = (None, None);
        let (long, oracle_only, required, valgrind) = (false, false, false, false);
        let mut o = Options { long, oracle_only, required, valgrind, seed, count, threads, store, only };
        let mut words = words;
        while let Some(word) = words.next() {
            let mut number = || words.next().and_then(|w| w.parse().ok()).ok_or(format!("{word} wants a number"));
            match word.as_str() {
                "--long" => o.long = true,
                "--oracle-only" => o.oracle_only = true,
                "--required" => o.required = true,
                "--valgrind" => o.valgrind = true,
                "--seed" => o.seed = number()?,
                "--count" => o.count = Some(number()?),
                "--threads" => o.threads = number()?,
                "--store" => o.store = Some(words.next().ok_or("--store wants a file")?),
                "--only" => o.only = Some(words.next().ok_or("--only wants a name")?),
                other => return Err(format!("unknown word {other}")),
            }
        }
        if o.only.as_ref().is_some_and(|only| !STAGES.contains(&only.as_str())) {
            return Err(format!("--only wants one of {}", STAGES.join(", ")));
        }
        if o.count.is_some() && o.only.as_ref().is_some_and(|only| !COUNTED.contains(&only.as_str())) {
            return Err(format!("with --only, --count is for {}", COUNTED.join(", ")));
        }
        if o.threads == 0 {
            // valgrind runs one thread at a time
            o.threads = if o.valgrind { 1 } else { std::thread::available_parallelism().map_or(1, |n| n.get() as u64) };
        }
        Ok(o)
    }

    pub fn extent(&self) -> Extent {
        match (self.valgrind, self.long) {
            (true, _) => Extent::Test,
            (_, true) => Extent::Long,
            _ => Extent::Short,
        }
    }

    /// The calls of a stage.
    pub fn calls(&self, numbers: [u64; 3]) -> u64 {
        self.count.filter(|_| self.only.is_some()).unwrap_or(self.extent().of(numbers))
    }

    /// Whether the calls are fewer than those that must show every answer.
    pub fn is_small(&self) -> bool {
        self.valgrind || self.only.is_some() && self.count.is_some_and(|count| count < 100_000)
    }

    /// The damaged sections that the Rust alone is asked for.
    pub fn damaged(&self) -> u64 {
        self.count.unwrap_or(if self.long { 10_000_000 } else { 400_000 })
    }
}
