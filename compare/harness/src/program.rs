//! The program: its line on standard output against the check put together from the published functions, in the tables that docs/FORMAT.md
//! gives the program.

mod inputs;
mod sections;

use crate::checks::check::CheckInput;
use crate::difference::{compare_known, hex, Difference, Input, Place};
use crate::extent::Extent;
use crate::share::share;
use crate::skeletons::read::ReadInput;
use crate::skeletons::write::sizes;
use crate::smaller::smaller_bytes;
use crate::tally::{status, Tally};
use cases::tables::{lengths, PROGRAM};
use cases::{Rng, Section};
use link::DONE;
use std::io::Write;
use std::path::{Path, PathBuf};
use std::process::{Command, Stdio};

/// The longest section that the program takes.
pub const LONGEST: usize = 65_536;

/// Where the program lies.
pub fn path() -> PathBuf {
    std::env::var_os("SKELETON_CHECK").map_or_else(|| "../crates/skeleton_check/out/skeleton_check".into(), PathBuf::from)
}

/// The bytes on standard input.
#[derive(Clone)]
pub struct Bytes(pub Vec<u8>);

impl Input for Bytes {
    fn smaller(&self) -> impl Iterator<Item = Self> {
        smaller_bytes(&self.0).map(Bytes)
    }

    fn text(&self) -> String {
        format!("{} bytes\nsystem {}\n", self.0.len(), hex(&self.0))
    }
}

/// The number of the answer, and the bone count of an accepted section.
fn wanted(bytes: &Bytes) -> (u32, usize) {
    if bytes.0.len() > LONGEST {
        return (1, 0);
    }
    let (exact, judged) = CheckInput::exact(Section::written(bytes.0.clone()), 0);
    let lent = ReadInput { lengths: lengths(PROGRAM), ..exact.read };
    let answer = judged.lent(&CheckInput { read: lent, derived: sizes(PROGRAM[0]) });
    (answer.status, answer.count)
}

fn line((number, count): (u32, usize)) -> String {
    match number {
        DONE => format!("ok {count}\n"),
        number => format!("refused {number}\n"),
    }
}

/// The line that the program must print.
pub fn rust(bytes: &Bytes) -> String {
    line(wanted(bytes))
}

/// What the program prints on these bytes. They are handed over in pieces of any length.
pub fn printed(program: &Path, bytes: &[u8]) -> String {
    let piece = 1 + Rng::new(bytes.len() as u64).below(2 * bytes.len());
    let run = || {
        let mut child = Command::new(program).stdin(Stdio::piped()).stdout(Stdio::piped()).spawn()?;
        let mut input = child.stdin.take().expect("a pipe");
        // a program that ends before its input does is judged by its line
        let _ = bytes.chunks(piece).try_for_each(|piece| input.write_all(piece));
        drop(input);
        child.wait_with_output()
    };
    let output = run().unwrap_or_else(|e| panic!("{} does not run: {e}", program.display()));
    let ended = if output.status.code().is_some() { "" } else { " (and was ended by a signal)" };
    format!("{}{ended}", String::from_utf8_lossy(&output.stdout))
}

/// What stands for the program: what it prints on some bytes.
pub type Program<'a> = &'a (dyn Fn(&[u8]) -> String + Sync);

/// Runs the program on the sections at its limits and on drawn ones; gives how often each answer came.
pub fn run(program: Program, folder: &Path, seed: u64, extent: Extent, threads: u64) -> Result<Tally, Difference> {
    let one = |tally: &mut Tally, seed: u64, bytes: Bytes| {
        let (place, known) = (Place { folder, name: "program", seed }, wanted(&bytes));
        compare_known(&place, &bytes, line(known), |b| program(&b.0), rust)?;
        tally.count("program", if known.0 == DONE { "ok" } else { status(known.0) });
        if let Some(length) = inputs::length_label(bytes.0.len()) {
            tally.count("program, bytes", length);
        }
        Ok(())
    };
    let mut tally = Tally::default();
    for (name, bytes) in sections::at_the_limits() {
        one(&mut tally, seed, Bytes(bytes))?;
        tally.count("program, at its limits", name);
    }
    let drawn = extent.of([300, 400, 20_000]);
    let random = |tally: &mut Tally, seed| one(tally, seed, Bytes(inputs::drawn(&mut Rng::new(seed))));
    tally.merge(&share(seed, drawn, threads, random)?);
    Ok(tally)
}

/// An error that names what never came.
pub fn require_all(tally: &Tally) -> Result<(), String> {
    tally.require("program", &["ok", "1", "10", "11", "12", "13", "21", "22", "23", "24", "25"])?;
    tally.require("program, bytes", &["0", "97", "98", "112", "65,536", "65,537"])
}

/// The two stored sections, and the line for each.
const EXAMPLES: [(&str, &str); 2] = [("horse.section", "ok 13\n"), ("horse_cut.section", "refused 21\n")];

/// Holds the stored sections in `folder` to their lines, of the program and of the Rust; gives their number.
pub fn examples(program: Program, folder: &Path) -> Result<usize, String> {
    for (name, line) in EXAMPLES {
        let bytes = std::fs::read(folder.join(name)).map_err(|e| format!("{name}: {e}"))?;
        let (ours, rust) = (program(&bytes), rust(&Bytes(bytes)));
        if ours != line || rust != line {
            return Err(format!("{name}: the program prints {ours:?}, the Rust gives {rust:?}, and it must be {line:?}"));
        }
    }
    Ok(EXAMPLES.len())
}
