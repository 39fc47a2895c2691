//! The stored sample: a fixed choice of cases with the published Rust's answers, and some that are wrong on purpose, which the
//! program `replay` runs with no Rust at hand (vectors/README.md).

mod case;
mod limits;
mod names;
mod records;
mod rigs;
mod sections;
mod wrong;

use case::{Operation, Stored};
use std::fs;
use std::path::Path;

/// Writes the sample to `file`.
pub fn write(file: &Path) -> Result<(), String> {
    let cases = sample()?;
    let bytes = laid(&cases);
    fs::write(file, &bytes).map_err(|e| format!("{}: {e}", file.display()))?;
    println!("stored {}, {} bytes, in {}; runs: {}", kinds(&cases), bytes.len(), file.display(), counts(&cases));
    Ok(())
}

/// Holds `file` to what the published Rust gives today; tells how many cases there are.
pub fn check(file: &Path) -> Result<String, String> {
    let stored = fs::read(file).map_err(|e| format!("{}: {e}", file.display()))?;
    let cases = sample()?;
    if laid(&cases) == stored {
        return Ok(kinds(&cases));
    }
    let mut rest = &stored[..];
    for case in &cases {
        rest = rest.strip_prefix(&case.bytes()[..]).ok_or_else(|| {
            format!("{}: {} is not what the Rust gives today", file.display(), case.name())
        })?;
    }
    Err(format!("{}: {} bytes behind the last case", file.display(), rest.len()))
}

fn sample() -> Result<Vec<Stored>, String> {
    let good = [sections::cases()?, rigs::cases(), limits::cases()?, names::cases(), records::cases()].concat();
    let wrong = wrong::cases(&good)?;
    Ok([good, wrong].concat())
}

fn laid(cases: &[Stored]) -> Vec<u8> {
    cases.iter().flat_map(Stored::bytes).collect()
}

fn kinds(cases: &[Stored]) -> String {
    let wrong = cases.iter().filter(|case| case.number >= wrong::FIRST).count();
    format!("{} cases as the Rust has them, {wrong} wrong on purpose", cases.len() - wrong)
}

/// How many runs of each operation there are.
fn counts(cases: &[Stored]) -> String {
    let of = |o: Operation| cases.iter().flat_map(|c| &c.runs).filter(|r| r.operation == o).count();
    Operation::ALL.map(|o| format!("{} {}", o.name(), of(o))).join(", ")
}
