//! Runs the published Rust over generated cases, and our library against it.

mod checks;
mod cursor;
mod damaged;
mod derived;
mod difference;
mod extent;
mod fields;
mod hash;
mod hostile;
mod joints;
mod lent;
mod lent_tables;
mod mass;
mod model;
mod options;
mod program;
mod readings;
mod rigs;
mod self_test;
mod setters;
mod share;
mod skeletons;
mod smaller;
mod store;
mod tally;

use options::Options;
use std::fmt::Display;
use std::path::Path;
use std::process::ExitCode;
use std::time::Instant;
use tally::Tally;

/// The stored sample, from the folder that the harness runs in.
const STORED: &str = "../crates/replay/stdin";

fn main() -> ExitCode {
    let result = Options::parse(std::env::args().skip(1)).and_then(|o| run(&o));
    match result {
        Ok(()) => ExitCode::SUCCESS,
        Err(e) => {
            eprintln!("compare: FAILED: {e}");
            ExitCode::FAILURE
        }
    }
}

fn run(o: &Options) -> Result<(), String> {
    if let Some(file) = &o.store {
        return store::write(Path::new(file));
    }
    let failures = Path::new("target/failures");
    let _ = std::fs::remove_dir_all(failures);
    println!("compare: seed {}, {} threads", o.seed, o.threads);
    let times = if o.long { 20 } else { 1 };
    if o.valgrind {
        lent::lend_exactly();
    }
    if o.valgrind || o.only.is_some() {
        return ours(o, failures);
    }
    stage("self-test", "faults found", || self_test::run(failures, o.threads))?;
    if o.oracle_only {
        println!("our library: left out (--oracle-only)");
    } else {
        ours(o, failures)?;
    }
    stage("readings", if link::LINKED { "shown by both" } else { "shown by the Rust" }, || readings::run(o.threads))?;
    println!("the Rust alone:");
    stage("stored sample", "", || store::check(Path::new(STORED)))?;
    stage("deriving", "rigs", || rigs::derive(o.seed, 20_000 * times, o.threads))?;
    stage("writing and reading back", "rigs", || rigs::write_and_read_back(o.seed, 20_000 * times, o.threads))?;
    stage("sections scattered over both halves", "rigs", || rigs::scattered(o.seed, 20_000 * times, o.threads))?;
    stage("joints", "lists", || rigs::joints(o.seed, 500 * times))?;
    stage("hash", "names", || rigs::hash(o.seed, 100_000 * times))?;
    stage("truncations", "", || damaged::truncations(o.seed, 40 * times, o.threads).map(|t| format!("\n{t}")))?;
    stage("damaged sections", "", || damaged::run(o.seed, o.damaged(), o.threads).map(|t| format!("\n{t}")))?;
    println!("compare: passed");
    Ok(())
}

/// Our library against the Rust, by groups of exports.
fn ours(o: &Options, failures: &Path) -> Result<(), String> {
    if !link::LINKED {
        return Err("the harness was built without librig.a; start it with compare/run".into());
    }
    let (extent, seed, threads) = (o.extent(), o.seed, o.threads);
    println!("our library against the Rust, all equal:");
    let calls = extent.of([2_000, 300_000, 6_000_000]) as usize;
    compared(o, "fields", "calls", link::fields(), |l| Ok(fields::run(l, failures, seed, calls)?))?;
    compared(o, "cursor", "cursors", link::cursor(), |l| Ok(cursor::run(l, failures, seed, extent)?))?;
    compared(o, "hash", "names", link::hash(), |l| Ok(hash::run(l, failures, seed, extent)?))?;
    compared(o, "setters", "calls", link::setters(), |l| Ok(setters::run(l, failures, seed, extent)?))?;
    compared(o, "deriving", "", link::derive(), |l| {
        let tally = derived::run(l, failures, seed, extent, threads)?;
        shown(o, tally, |tally| {
            ["tags", "indices", "matrices"].iter().try_for_each(|call| tally.require(call, &["done", "1", "2"]))
        })
    })?;
    compared(o, "joints", "", link::joints(), |l| {
        let tally = joints::run(l, failures, seed, extent, threads)?;
        shown(o, tally, |tally| {
            tally.require("joints read", &["done", "none", "1", "10", "11"])?;
            tally.require("joints write", &["done", "1", "5", "6", "35"])?;
            tally.require("rotation limit write", &["done", "5", "35"])?;
            tally.require("translation limit write", &["done", "5"])
        })
    })?;
    compared(o, "skeletons", "", link::skeletons(), |l| {
        shown(o, skeletons::run(l, failures, seed, extent, threads)?, skeletons::require_all)
    })?;
    compared(o, "hostile", "", link::skeletons(), |l| {
        let runs = skeletons::Runs { library: l, folder: failures, seed };
        shown(o, hostile::run(runs, extent, threads)?, hostile::require_all)
    })?;
    compared(o, "checks", "", link::checks(), |l| {
        shown(o, checks::run(l, failures, seed, extent, threads)?, checks::require_all)
    })?;
    masses(o, failures)?;
    if o.valgrind {
        return Ok(());
    }
    let path = program::path();
    let started = |bytes: &[u8]| program::printed(&path, bytes);
    compared(o, "program", "", path.is_file().then_some(&started as program::Program), |p| {
        program::examples(p, Path::new("../examples"))?;
        let tally = program::run(p, failures, seed, extent, threads)?;
        program::require_all(&tally)?;
        Ok(format!("\n{tally}"))
    })?;
    Ok(())
}

/// Many calls on few bones.
fn masses(o: &Options, failures: &Path) -> Result<(), String> {
    let (seed, threads) = (o.seed, o.threads);
    compared(o, "reads", "", link::skeletons(), |l| {
        let done = mass::reads::run(l, failures, seed, o.calls([50_000, 400_000, 100_000_000]), threads)?;
        shown(o, done, mass::reads::require_all)
    })?;
    compared(o, "verdicts", "", link::checks(), |l| {
        let done = mass::checks::run(l, failures, seed, o.calls([15_000, 100_000, 20_000_000]), threads)?;
        shown(o, done, mass::checks::require_all)
    })?;
    compared(o, "writes", "", link::skeletons(), |l| {
        let done = mass::writes::run(l, failures, seed, o.calls([8_000, 50_000, 11_000_000]), threads)?;
        shown(o, done, mass::writes::require_all)
    })
}

/// What a stage is held to have met: nothing of a run that was made small by its words.
fn shown<T: Display + AsRef<Tally>>(
    o: &Options,
    given: T,
    required: impl Fn(&Tally) -> Result<(), String>,
) -> Result<String, String> {
    if !o.is_small() {
        required(given.as_ref())?;
    }
    Ok(format!("\n{given}"))
}

/// Runs the comparison of one group of exports, or of the program. What is missing is a line, or an error if required.
fn compared<L: ?Sized, T: Display>(
    o: &Options,
    name: &str,
    unit: &str,
    group: Option<&L>,
    run: impl FnOnce(&L) -> Result<T, String>,
) -> Result<(), String> {
    let missing = match name {
        "program" => format!("there is no {}", program::path().display()),
        _ => "librig.a has no such exports".into(),
    };
    match group {
        _ if o.only.as_ref().is_some_and(|only| only != name) => Ok(()),
        Some(group) => stage(name, unit, || run(group)),
        None if o.required => Err(format!("{name}: {missing}")),
        None => {
            println!("not run: the comparison of {name}: {missing}");
            Ok(())
        }
    }
}

/// Runs one stage and prints what it gives and its time.
fn stage<T: Display>(name: &str, unit: &str, f: impl FnOnce() -> Result<T, String>) -> Result<(), String> {
    let start = Instant::now();
    let given = f()?;
    println!("{name}: {given} {unit} ({:.1} s)", start.elapsed().as_secs_f64());
    Ok(())
}
