//! Hostile sections: however long the search of the pool takes, reading gives what the Rust gives, in every lent word.

use crate::difference::Difference;
use crate::extent::Extent;
use crate::share::share_items;
use crate::skeletons::read::ReadInput;
use crate::skeletons::Runs;
use crate::tally::Tally;
use cases::hostile::{Hostile, HOSTILE};
use cases::tables::{Table, WIDTHS};

pub fn require_all(tally: &Tally) -> Result<(), String> {
    tally.require("read", &["done", "1"])
}

/// Reads each kind of section in a pool that it fills, one that it fills by half and one that is a row short, made for that pool.
pub fn run(runs: Runs, extent: Extent, threads: u64) -> Result<Tally, Difference> {
    let pools = |rows: usize| [rows, 2 * rows, rows - 1];
    let entries = |hostile: &Hostile| extent.of(hostile.entries.map(|n| n as u64)) as usize;
    let calls: Vec<_> = HOSTILE.iter().flat_map(|h| pools(Hostile::rows(entries(h))).map(|rows| (h, rows))).collect();
    share_items(&calls, threads, |tally, &(hostile, rows)| {
        let (section, _) = hostile.section(entries(hostile), rows);
        let (mut input, asked) = ReadInput::exact(section, runs.seed);
        let pool = Table::Pool as usize;
        assert_eq!(input.lengths[pool], WIDTHS[pool] * Hostile::rows(entries(hostile)), "the rows of {}", hostile.name);
        input.lengths[pool] = WIDTHS[pool] * rows;
        runs.read(tally, &input, &asked).map(drop)
    })
}
