//! What the parts of a reading take: sections that lack some of them, read into the tables of the whole one.

use crate::rigs::{named, Drawn};
use crate::skeletons::ReadLent;
use cases::records::{bone, skeleton as s};
use cases::Section;
use link::{Halves, Skeletons, DONE, NONE};
use oracle::PreparedRig;
use std::time::{Duration, Instant};

/// How much processor time is spent on each section.
const SPENT: u64 = 1_000_000_000;

/// Prints a line for each section: nanoseconds a bone, the mean by processor time, and the least by the clock.
pub fn run(library: &dyn Skeletons, drawn: Drawn, n: usize) -> Result<(), String> {
    let whole = Section::written(PreparedRig::new(&named(drawn, n)).write().0);
    let mut nameless = whole.clone();
    for i in 0..n as u64 {
        nameless.put_u64(whole.pointer(s::BONES) + bone::SIZE as u64 * i + bone::NAME as u64, 0);
    }
    let without = |lists: &[usize], from: &Section| {
        let mut section = from.clone();
        lists.iter().for_each(|&list| section.set_pointer(list, 0));
        section
    };
    let (matrices, indices) = ([s::INVERSE, s::LOCAL], [s::PARENTS, s::CHILDREN]);
    let lists = [s::INVERSE, s::LOCAL, s::PARENTS, s::CHILDREN];
    let all = |more: &[usize]| [&lists[..], more].concat();
    let none = Section { root: 0, ..whole.clone() };
    for (name, section, pool) in [
        ("the whole", whole.clone(), 2),
        ("the whole, pool full", whole.clone(), 1),
        ("the whole, pool a quarter full", whole.clone(), 4),
        ("root 0: clearing alone", none, 2),
        ("no list at all", without(&all(&[s::BUCKETS, s::BONES]), &whole), 2),
        ("chains alone", without(&all(&[s::BONES]), &whole), 2),
        ("bones alone", without(&all(&[s::BUCKETS]), &whole), 2),
        ("bones alone, no names", without(&all(&[s::BUCKETS]), &nameless), 2),
        ("without chains", without(&[s::BUCKETS], &whole), 2),
        ("without names", nameless.clone(), 2),
        ("without matrices", without(&matrices, &whole), 2),
        ("without parents and children", without(&indices, &whole), 2),
        ("the whole again", whole.clone(), 2),
    ] {
        let mut lent = ReadLent::new(&whole.system, pool);
        let [mean, least] = time(library, &section, &mut lent)?.map(|time| time / n as f64);
        println!("{name}: mean {mean:.1}, least {least:.1}");
    }
    Ok(())
}

fn time(library: &dyn Skeletons, section: &Section, lent: &mut ReadLent) -> Result<[f64; 2], String> {
    let (start, mut calls, mut least) = (processor()?, 0, Duration::MAX);
    loop {
        // so many calls that asking for the processor time does not count
        for _ in 0..20 {
            let (halves, tables, mut fields) = (Halves { system: &section.system, graphics: &[] }, lent.tables(), [0; 20]);
            let clock = Instant::now();
            let status = library.read(halves, section.root, tables, &mut fields);
            least = least.min(clock.elapsed());
            assert!([DONE, NONE].contains(&status), "a section that reads");
            calls += 1;
        }
        let spent = processor()? - start;
        if spent >= SPENT {
            return Ok([spent as f64 / calls as f64, least.as_nanos() as f64]);
        }
    }
}

/// The processor time of this thread in nanoseconds, which other processes do not take part in.
fn processor() -> Result<u64, String> {
    let text = std::fs::read_to_string("/proc/thread-self/schedstat").map_err(|e| format!("schedstat: {e}"))?;
    text.split(' ').next().and_then(|time| time.parse().ok()).ok_or_else(|| "schedstat: no time".into())
}
