//! Addresses against the tree: all their homes lie where the pool is full, and their keys lead far down.

use super::addresses::{of_lowest_home, within};
use super::{BUCKETS, ENTRIES};
use crate::rng::Rng;
use crate::search::{home, End, Pool};
use std::cmp::Reverse;

/// For each of the first `block` rows an address whose home it is, if there is one.
fn solid(all: impl Iterator<Item = u64>, block: usize, rows: usize) -> Vec<u64> {
    let mut first = vec![None; rows];
    all.for_each(|va| first[home(va, rows)] = first[home(va, rows)].or(Some(va)));
    first.into_iter().take(block).flatten().collect()
}

/// A pool of so many rows in which these addresses are stored.
fn pooled(addresses: &[u64], rows: usize) -> Pool {
    let mut pool = Pool::new(rows);
    addresses.iter().for_each(|&va| pool.store(va, pool.search(va).0));
    pool
}

/// A solid block of 0.4 of the wanted rows; then, each time, that of so many drawn addresses whose search looks at the most rows.
fn block_then_dearest(n: usize, rows: usize, bytes: usize, step: usize, draws: usize) -> Vec<u64> {
    let mut asked = solid(within(n, bytes, step), n * 2 / 5, rows);
    let (mut pool, mut rng, places) = (pooled(&asked, rows), Rng::new(1), n * bytes / step);
    while asked.len() < n {
        let drawn = (0..draws).map(|_| ENTRIES + (rng.below(places) * step) as u64);
        let new = drawn.map(|va| (pool.search(va), va)).filter(|((end, _), _)| *end != End::Known);
        if let Some(((end, _), va)) = new.max_by_key(|((_, looked), _)| *looked) {
            pool.store(va, end);
            asked.push(va);
        }
    }
    asked
}

pub fn dearest(n: usize, rows: usize) -> Vec<u64> {
    block_then_dearest(n, rows, 64, 1, 100)
}

pub fn dearest_of_chain(n: usize, rows: usize) -> Vec<u64> {
    block_then_dearest(n, rows, 160, 20, 100)
}

/// Of the lowest homes among the first 16 bytes of each 512: the first 5 bits of all keys are the same, and 28 bits of the keys of
/// 16 bytes.
pub fn deepest(n: usize, rows: usize) -> Vec<u64> {
    let groups = within(n, 1_024, 512);
    of_lowest_home(groups.flat_map(|group| group..group + 16), n, rows)
}

/// The deepest tree, and then, for all other buckets, any of that quarter of its addresses whose search looks at the most rows.
pub fn deepest_again(n: usize, rows: usize) -> Vec<u64> {
    let mut asked = deepest(n, rows);
    let (pool, mut rng, mut dearest) = (pooled(&asked, rows), Rng::new(1), asked.clone());
    dearest.sort_by_key(|&va| Reverse(pool.search(va).1));
    dearest.truncate(n / 4);
    asked.resize_with(BUCKETS, || rng.pick(&dearest));
    asked
}

/// A solid block, 32 addresses whose rows are one path of the tree, and then, for all other buckets, the address at its end. The
/// homes of all 33 lie in the block.
pub fn longest_path_again(n: usize, rows: usize) -> Vec<u64> {
    let block = n - 33;
    let mut asked = solid(within(1, 0x1_0000, 1), block, rows);
    // 1 MiB apart, so that the first 16 bits of their keys are the same, and the 16 bytes at each find no free row near their homes
    let mut alike = (1..0x100).map(|i| ENTRIES + i * 0x10_0000).filter(|&va| home(va, rows) + 22 <= block);
    let [other, group, last] = [(); 3].map(|()| alike.next().expect("a home in the block"));
    asked.push(other);
    asked.extend(group..group + 16);
    // the keys of the 16 bytes at the last agree with its own in 28 bits and more, the later the more
    for agree in 0..4 {
        asked.extend((1..16u64).filter(|byte| byte.trailing_zeros() == agree).map(|byte| last + byte));
    }
    asked.resize(BUCKETS, last);
    asked
}
