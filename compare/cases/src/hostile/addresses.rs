//! Addresses by the hash alone: those of the lowest homes, and runs and strides.

use super::ENTRIES;
use crate::records::entry;
use crate::search::home;

/// All addresses of so many bytes for each of `n` entries, `step` bytes apart.
pub(super) fn within(n: usize, bytes: usize, step: usize) -> impl Iterator<Item = u64> {
    (0..n * bytes).step_by(step).map(|at| ENTRIES + at as u64)
}

/// The `n` of lowest home, rising by it.
pub(super) fn of_lowest_home(all: impl Iterator<Item = u64>, n: usize, rows: usize) -> Vec<u64> {
    let mut homes: Vec<(usize, u64)> = all.map(|va| (home(va, rows), va)).collect();
    homes.select_nth_unstable(n - 1);
    homes.truncate(n);
    homes.sort_unstable();
    homes.into_iter().map(|(_, va)| va).collect()
}

/// At any byte of 64 for each: 65,535 in 4 MiB.
pub fn lowest(n: usize, rows: usize) -> Vec<u64> {
    of_lowest_home(within(n, 64, 1), n, rows)
}

/// At multiples of 16 in 160 bytes for each: 262,144 in 40 MiB.
pub fn lowest_of_chain(n: usize, rows: usize) -> Vec<u64> {
    of_lowest_home(within(n, 160, entry::SIZE), n, rows)
}

/// Runs of so many neighbouring addresses, one at each multiple of `stride`.
fn runs(n: usize, run: usize, stride: usize) -> Vec<u64> {
    (0..n).map(|i| ENTRIES + (i / run * stride + i % run) as u64).collect()
}

pub fn every_byte(n: usize, _: usize) -> Vec<u64> {
    runs(n, n, 0)
}

pub fn every_2_bytes(n: usize, _: usize) -> Vec<u64> {
    runs(n, 1, 2)
}

pub fn runs_of_512(n: usize, _: usize) -> Vec<u64> {
    runs(n, 512, 1 << 16)
}

pub fn runs_of_4096(n: usize, _: usize) -> Vec<u64> {
    runs(n, 4_096, 1 << 22)
}

pub fn strides_of_512(n: usize, _: usize) -> Vec<u64> {
    runs(n, 1, 512)
}

pub fn strides_of_4096(n: usize, _: usize) -> Vec<u64> {
    runs(n, 1, 4_096)
}
