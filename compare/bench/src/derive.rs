//! Deriving.

use crate::lent::Lent;
use crate::rigs::{tame, thousands, Drawn, COUNTS};
use crate::timing::{timed, Row, Table};
use cases::rigs::{chain, tree};
use cases::trial::{plain_bone, BUCKET_ENDS};
use link::Derive;
use oracle::{num_hash_buckets, Bone, PreparedBones};
use std::time::Duration;

/// The most bones of a chain whose indices and matrices the Rust is asked for.
const LONGEST_CHAIN: usize = 10_000;

/// How many buckets there are: of every count that a skeleton can have, and of counts that give each answer equally often.
pub fn buckets(table: &Table, library: &dyn Derive) {
    let every: Vec<usize> = (0..=65_535).collect();
    let ends: Vec<usize> = BUCKET_ENDS.iter().flat_map(|&(_, least, greatest)| [least, greatest]).collect();
    for (input, counts) in [("each count from 0 to 65,535", every), ("the ends of each answer, in turn", ends.repeat(1_000))] {
        let row = Row { call: "buckets", input, units: counts.len(), unit: "a count" };
        let all = |buckets: &dyn Fn(usize) -> usize| timed(|| counts.iter().fold(0, |sum, &n| sum ^ buckets(n)));
        table.both(&row, || all(&|n| library.num_hash_buckets(n)), || all(&num_hash_buckets));
    }
}

/// Tags, indices and matrices of random trees and chains.
pub fn rigs(table: &Table, library: &dyn Derive) {
    for n in COUNTS {
        for (shape, drawn) in [("random tree", tree as Drawn), ("chain", chain)] {
            let bones = tame(drawn, n);
            let mut lent = Lent::new(&bones);
            let rust = PreparedBones::new(&bones);
            let input = format!("{shape}, {} bones", thousands(n));
            let row = |call| Row { call, input: &input, units: n, unit: "a bone" };
            table.both(&row("tags"), || lent.tags(library), || timed(|| rust.build_bone_tags()));
            if shape == "chain" && n > LONGEST_CHAIN {
                table.alone(&row("indices"), || lent.indices(library));
                table.alone(&row("matrices"), || lent.matrices(library));
            } else {
                table.both(&row("indices"), || lent.indices(library), || timed(|| rust.build_indices()));
                table.both(&row("matrices"), || lent.matrices(library), || timed(|| rust.build_transformations()));
            }
        }
    }
}

/// 65,535 bones of one index, one parent and one tag, ours alone; an error where a call takes a second.
pub fn one_index(table: &Table, library: &dyn Derive) -> Result<(), String> {
    let n = 65_535;
    let mut lent = Lent::new(&vec![Bone { index: -1, ..plain_bone(0, -1) }; n]);
    let row = |call| Row { call, input: "one index and parent (-1), 65,535 bones", units: n, unit: "a bone" };
    let slow = |call: &str, time: Duration| format!("{call} of 65,535 bones of one index took {time:?}");
    for (call, time) in [
        ("tags", table.alone(&row("tags"), || lent.tags(library))),
        ("indices", table.alone(&row("indices"), || lent.indices(library))),
        ("matrices", table.alone(&row("matrices"), || lent.matrices(library))),
    ] {
        if time >= Duration::from_secs(1) {
            return Err(slow(call, time));
        }
    }
    Ok(())
}
