//! The comparison's own test: faults put in here, not in the library, must be found, shrunk and stored.

mod checks;
mod cursor;
mod derive;
mod fields;
mod joints;
mod limit;
mod program;
mod setters;
mod skeleton_read;
mod skeleton_write;
mod skeletons;

use crate::difference::Difference;
use crate::extent::Extent::Test;
use crate::share::each;
use crate::{derived, hash, lent, mass};
use fields::{Fault, Faulty};
use std::path::Path;

/// Runs every fault, shared among `threads`; an error where one is not found. Gives the number of faults found.
pub fn run(folder: &Path, threads: u64) -> Result<usize, String> {
    let folder = &folder.join("self_test");
    if !lent::changes_are_noticed() {
        return Err("self-test: a touched guard was not found".into());
    }
    Ok(1 + single_fields(folder)?
        + cursors(folder)?
        + deriving(folder, threads)?
        + hashing(folder)?
        + setting(folder)?
        + limits(folder, threads)?
        + sections(folder, threads)?
        + checked(folder, threads)?
        + masses(folder, threads)?
        + printed(folder, threads)?)
}

fn single_fields(folder: &Path) -> Result<usize, String> {
    let run = |fault| crate::fields::run(&Faulty(fault), folder, 1, 1_000);
    none(run(Fault::None))?;
    for (fault, name) in
        [(Fault::ReadBit, "a wrong bit"), (Fault::PutAnyway, "a put out of bounds"), (Fault::PutMore, "a byte too many")]
    {
        let d = stored(run(fault), name)?;
        if fault == Fault::ReadBit && !d.text.contains("bytes 000000000000000000\nat 3\nvalue 0\n") {
            return Err(format!("self-test: {name} was not shrunk to nine zero bytes:\n{}", d.text));
        }
    }
    Ok(3)
}

fn cursors(folder: &Path) -> Result<usize, String> {
    none(crate::cursor::run(&cursor::Faulty(None), folder, 1, Test))?;
    for fault in cursor::FAULTS {
        stored(crate::cursor::run(&cursor::Faulty(Some(fault)), folder, 1, Test), &format!("{fault:?}"))?;
    }
    Ok(cursor::FAULTS.len())
}

fn deriving(folder: &Path, threads: u64) -> Result<usize, String> {
    none(derived::run(&derive::Faulty(None), folder, 1, Test, threads))?;
    let found = each(&derive::FAULTS, threads, |&fault| {
        let d = stored(derived::run(&derive::Faulty(Some(fault)), folder, 1, Test, 1), &format!("{fault:?}"))?;
        // each fault shows in at most 17 bones
        if bones(&d) > 17 {
            return Err(format!("self-test: {fault:?} was shrunk to {} bones only", bones(&d)));
        }
        Ok(())
    })?;
    Ok(found.len())
}

fn hashing(folder: &Path) -> Result<usize, String> {
    none(hash::run(&derive::Faulty(None), folder, 1, Test))?;
    stored(hash::run(&derive::Faulty(Some(derive::Fault::HashByte)), folder, 1, Test), "a wrong hash")?;
    Ok(1)
}

fn setting(folder: &Path) -> Result<usize, String> {
    none(crate::setters::run(&setters::Faulty(None), folder, 1, Test))?;
    for fault in setters::FAULTS {
        let d = stored(crate::setters::run(&setters::Faulty(Some(fault)), folder, 1, Test), &format!("{fault:?}"))?;
        // each fault shows in one word, the others being 0
        let lent = d.text.lines().filter(|l| l.starts_with("matrix ") || l.starts_with("vector "));
        if lent.flat_map(|l| l.split(' ').skip(1)).filter(|&word| word != "0").count() > 1 {
            return Err(format!("self-test: {fault:?} was not shrunk:\n{}", d.text));
        }
    }
    Ok(setters::FAULTS.len())
}

fn limits(folder: &Path, threads: u64) -> Result<usize, String> {
    none(crate::joints::run(&joints::Faulty(None), folder, 1, Test, threads))?;
    let found = each(&joints::faults(), threads, |&fault| {
        stored(crate::joints::run(&joints::Faulty(Some(fault)), folder, 1, Test, 1), &format!("{fault:?}"))
    })?;
    Ok(found.len())
}

fn sections(folder: &Path, threads: u64) -> Result<usize, String> {
    none(crate::skeletons::run(&skeletons::Faulty(None), folder, 1, Test, threads))?;
    let found = each(&skeletons::faults(), threads, |&fault| {
        let d = stored(crate::skeletons::run(&skeletons::Faulty(Some(fault)), folder, 1, Test, 1), &format!("{fault:?}"))?;
        // each fault of reading shows in a skeleton and few more bytes, each fault of writing in at most two bones
        if matches!(fault, skeletons::Fault::Read(_)) && system(&d) > 400 || bones(&d) > 2 {
            return Err(format!("self-test: {fault:?} was not shrunk:\n{}", d.text));
        }
        Ok(())
    })?;
    if !skeletons::three_is_noticed() {
        return Err("self-test: 65,536 child entries taken were not found".into());
    }
    Ok(found.len() + 1)
}

fn checked(folder: &Path, threads: u64) -> Result<usize, String> {
    none(crate::checks::run(&checks::Faulty(None), folder, 1, Test, threads))?;
    let found = each(&checks::FAULTS, threads, |&fault| {
        let d = stored(crate::checks::run(&checks::Faulty(Some(fault)), folder, 1, Test, 1), &format!("{fault:?}"))?;
        // each fault shows in few bones and their lists
        if system(&d) > 1_600 {
            return Err(format!("self-test: {fault:?} was not shrunk:\n{}", d.text));
        }
        Ok(())
    })?;
    Ok(found.len())
}

/// The same faults in the stages of many calls, and each place of what these lend touched behind the call.
fn masses(folder: &Path, threads: u64) -> Result<usize, String> {
    const CALLS: u64 = 20_000;
    let touches = [
        (mass::reads::touches_are_noticed(&skeletons::Faulty(None)), "reads"),
        (mass::checks::touches_are_noticed(&checks::Faulty(None)), "verdicts"),
        (mass::writes::touches_are_noticed(&skeletons::Faulty(None)), "writes"),
    ];
    if let Some((_, stage)) = touches.iter().find(|(noticed, _)| !noticed) {
        return Err(format!("self-test: what was touched in the memory of {stage} was not found"));
    }
    // each fault shows in few bones and their lists
    let small = |run: Result<mass::Done, Difference>, fault: &str| {
        let d = stored(run, fault)?;
        if system(&d) > 1_600 || bones(&d) > 2 {
            return Err(format!("self-test: {fault} was not shrunk:\n{}", d.text));
        }
        Ok(())
    };
    let reads = |fault, threads| mass::reads::run(&skeletons::Faulty(fault), folder, 1, CALLS, threads);
    let verdicts = |fault, threads| mass::checks::run(&checks::Faulty(fault), folder, 1, CALLS, threads);
    let writes = |fault, threads| mass::writes::run(&skeletons::Faulty(fault), folder, 1, CALLS, threads);
    none(reads(None, threads))?;
    none(verdicts(None, threads))?;
    none(writes(None, threads))?;
    let of_skeletons = each(&skeletons::faults(), threads, |&fault| {
        let run = if matches!(fault, skeletons::Fault::Read(_)) { reads(Some(fault), 1) } else { writes(Some(fault), 1) };
        small(run, &format!("{fault:?} of many"))
    })?;
    let of_checks = each(&checks::OF_CHECK, threads, |&fault| small(verdicts(Some(fault), 1), &format!("{fault:?} of many")))?;
    // a fault of reading in the round trip
    let round_trip =
        each(&skeletons::ROUND_TRIP, threads, |&fault| small(writes(Some(fault), 1), &format!("{fault:?} of the round trip")))?;
    Ok(touches.len() + of_skeletons.len() + of_checks.len() + round_trip.len())
}

fn printed(folder: &Path, threads: u64) -> Result<usize, String> {
    let right = |bytes: &[u8]| crate::program::rust(&crate::program::Bytes(bytes.to_vec()));
    none(crate::program::run(&right, folder, 1, Test, threads))?;
    let found = each(&program::FAULTS, threads, |(name, fault)| {
        stored(crate::program::run(&|bytes| fault(bytes, right(bytes)), folder, 1, Test, 1), name)
    })?;
    Ok(found.len())
}

/// The bytes of the smallest input's system half.
fn system(d: &Difference) -> usize {
    d.text.lines().find_map(|l| l.strip_prefix("system ")).map_or(0, |hex| hex.len() / 2)
}

/// The bones of the smallest input.
fn bones(d: &Difference) -> usize {
    d.text.lines().filter(|l| l.starts_with("bone")).count()
}

/// Where there is no fault, no difference may be found.
fn none<T>(result: Result<T, Difference>) -> Result<(), String> {
    result.map(|_| ()).map_err(|d| format!("self-test: a difference where there is no fault: {d}"))
}

/// The difference, which must have been found and stored.
fn stored<T>(result: Result<T, Difference>, name: &str) -> Result<Difference, String> {
    match result {
        Ok(_) => Err(format!("self-test: {name} was not found")),
        Err(d) if !d.file.is_file() => Err(format!("self-test: {name} was not stored")),
        Err(d) => Ok(d),
    }
}
