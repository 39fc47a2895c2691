//! Damaged sections and truncations: read, checked and looked up with the published Rust.

use crate::model::greatest_position;
use crate::share::share;
use crate::tally::{refusal, Tally};
use cases::{damaged, good, Rng, Section};
use oracle::{check_reading, lookup, read, Answer, Bone, Found, Verdict};
use std::panic::{catch_unwind, AssertUnwindSafe};

/// Reads `count` damaged sections from `seed` on, shared among `threads`.
pub fn run(seed: u64, count: u64, threads: u64) -> Result<Tally, String> {
    let tally = share(seed, count, threads, one_damaged)?;
    tally.require("read", &["none", "10", "11", "12", "13", "read"])?;
    tally.require("check", &["none", "10", "11", "12", "13", "21", "22", "23", "24", "25", "ok"])?;
    tally.require("lookup", &["none", "10", "11", "14", "position"])?;
    Ok(tally)
}

fn one_damaged(tally: &mut Tally, seed: u64) -> Result<(), String> {
    let case = damaged(seed);
    let tag = Rng::new(seed).below(48) as u32;
    let asked = catch_unwind(AssertUnwindSafe(|| ask(tally, &case.section, tag))).unwrap_or(Err("a panic".into()));
    asked.map_err(|e| format!("damaged section, seed {seed}, {}: {e}", case.changes.join(" ")))
}

/// Every truncation of either half of good sections, one section for each of `sections` seeds, shared among `threads`.
pub fn truncations(seed: u64, sections: u64, threads: u64) -> Result<Tally, String> {
    let tally = share(seed, sections, threads, |tally, seed| {
        let (_, whole) = good(&mut Rng::new(seed));
        let mut cuts = whole.truncations().enumerate();
        cuts.try_for_each(|(i, cut)| ask(tally, &cut, i as u32 % 48).map_err(|e| format!("truncation {i}, seed {seed}: {e}")))
    })?;
    tally.require("read", &["11", "read"])?;
    Ok(tally)
}

/// Counts the answers of reading, check and one lookup. In an accepted section of two or more bones the
/// lookup must find the greatest position of every tag, and none of a tag that no bone bears.
fn ask(tally: &mut Tally, s: &Section, tag: u32) -> Result<(), String> {
    let find = |tag| lookup(&s.system, &s.graphics, s.root, tag);
    tally.count("lookup", found_label(find(tag)));
    let answer = read(&s.system, &s.graphics, s.root);
    tally.count("read", read_label(&answer));
    let verdict = match &answer {
        Answer::None => Verdict::None,
        Answer::Refused(n) => Verdict::Refused(*n),
        Answer::Read(r) => check_reading(r),
    };
    tally.count("check", check_label(verdict));
    let (Verdict::Accepted(2..), Answer::Read(r)) = (verdict, &answer) else { return Ok(()) };
    let bones: &[Bone] = r.bones.as_deref().unwrap_or(&[]);
    for tag in bones.iter().map(|b| b.tag as u32).chain([0, 11, tag, 65_535]) {
        let wanted = greatest_position(bones, tag).map_or(Found::None, Found::At);
        if find(tag) != wanted {
            return Err(format!("accepted, and tag {tag} is found as {:?} instead of {wanted:?}", find(tag)));
        }
    }
    Ok(())
}

fn read_label(a: &Answer) -> &'static str {
    match a {
        Answer::None => "none",
        Answer::Refused(n) => refusal(*n),
        Answer::Read(_) => "read",
    }
}

fn check_label(v: Verdict) -> &'static str {
    match v {
        Verdict::None => "none",
        Verdict::Refused(n) => refusal(n),
        Verdict::Accepted(_) => "ok",
    }
}

fn found_label(f: Found) -> &'static str {
    match f {
        Found::None => "none",
        Found::Refused(n) => refusal(n),
        Found::At(_) => "position",
    }
}
