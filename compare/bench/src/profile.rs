//! One call of ours again and again, for a profiler.

use crate::checks::check_once;
use crate::lent::Lent;
use crate::parts;
use crate::rigs::{named, Drawn};
use crate::skeletons::{longest, ReadLent, WriteLent};
use cases::rigs::{chain, tree};
use oracle::PreparedRig;
use std::time::{Duration, Instant};

/// How long the call is made.
const SPENT: Duration = Duration::from_secs(4);

pub const USAGE: &str = "profile CALL SHAPE BONES, where CALL is read, read-full, read-parts, write, check, tags, indices or \
matrices and SHAPE is tree, chain or longest";

/// Makes the call named, on a rig of so many bones.
pub fn run(words: &[String]) -> Result<(), String> {
    let [call, shape, bones] = words else { return Err(USAGE.into()) };
    let (library, derive, checks) =
        link::skeletons().zip(link::derive()).zip(link::checks()).map(|((s, d), c)| (s, d, c)).ok_or("librig.a lacks a group")?;
    let drawn: Drawn = match shape.as_str() {
        "tree" => tree,
        "chain" => chain,
        "longest" => longest,
        _ => return Err(USAGE.into()),
    };
    let n: usize = bones.parse().map_err(|_| USAGE)?;
    if call == "read-parts" {
        return parts::run(library, drawn, n);
    }
    let bones = named(drawn, n);
    let section = || PreparedRig::new(&bones).write().0;
    let mut lent = Lent::new(&bones);
    let (calls, time) = match call.as_str() {
        "read" | "read-full" => {
            let section = section();
            let mut lent = ReadLent::new(&section, if call == "read" { 2 } else { 1 });
            spend(|| lent.read(library, &section))
        }
        "write" => {
            let mut lent = WriteLent::new(&bones, section().len());
            spend(|| lent.write(library))
        }
        "check" => {
            let section = section();
            let mut read = ReadLent::new(&section, 2);
            spend(|| check_once(checks, &section, &mut read, &mut lent))
        }
        "tags" => spend(|| lent.tags(derive)),
        "indices" => spend(|| lent.indices(derive)),
        "matrices" => spend(|| lent.matrices(derive)),
        _ => return Err(USAGE.into()),
    };
    println!("{call}, {shape}, {n} bones: {calls} calls, the least {:.1} ns a bone", time.as_nanos() as f64 / n as f64);
    Ok(())
}

/// How many calls were made, and the least time of one.
fn spend(mut call: impl FnMut() -> Duration) -> (usize, Duration) {
    let (start, mut calls, mut least) = (Instant::now(), 0, Duration::MAX);
    while start.elapsed() < SPENT {
        least = least.min(call());
        calls += 1;
    }
    (calls, least)
}
