//! The tables that reading is lent, in the order bones, buckets, entries, inverse, local, parents, children, pool: the words
//! of a row of each, the rows used, and what a reading leaves there.

use crate::rows::{placed_bones, Place, BONE, ENTRY, MATRIX, POOL};
use oracle::{num_hash_buckets, Entry, Matrix, Reading, Rows};

/// The place of each in a list of all.
#[derive(Clone, Copy, Debug, PartialEq, Eq)]
pub enum Table {
    Bones,
    Buckets,
    Entries,
    Inverse,
    Local,
    Parents,
    Children,
    Pool,
}

pub const NAMES: [&str; 8] = ["bones", "buckets", "entries", "inverse", "local", "parents", "children", "pool"];

/// The words of a row of each table; those of parents and children have 16 bits, those of the pool 64.
pub const WIDTHS: [usize; 8] = [BONE, 1, ENTRY, MATRIX, MATRIX, 1, 1, POOL];

/// The rows used of each table.
pub fn used(r: &Rows) -> [usize; 8] {
    [r.bones, r.buckets, r.entries, r.inverse, r.local, r.parents, r.children, r.pool]
}

/// The words of so many rows of each table.
pub fn lengths(rows: [usize; 8]) -> [usize; 8] {
    std::array::from_fn(|table| WIDTHS[table] * rows[table])
}

/// The words of the rows used.
pub fn exact(r: &Rows) -> [usize; 8] {
    lengths(used(r))
}

/// The rows of the program's tables for reading (docs/FORMAT.md, "Joints and names").
pub const PROGRAM: [usize; 8] = [800, 8_192, 4_096, 800, 800, 800, 8_192, 8_192];

/// The rows that `n` bones want of the tables for deriving (docs/FORMAT.md, "Who can cause a refusal"): buckets, entries, inverse,
/// local, parents, children, pending.
pub fn derived(n: usize) -> [usize; 7] {
    let [buckets, entries] = if n < 2 { [0, 0] } else { [num_hash_buckets(n), n] };
    [buckets, entries, n, n, n, 8 * (n + 1), 4 * (n + 1)]
}

/// The words of the rows that a reading leaves in each table but the pool, 16-bit words widened.
pub fn words(r: &Reading) -> [Vec<u32>; 7] {
    // 0, or one more than the row of an entry
    let link = |row: Option<usize>| row.map_or(0, |row| row as u32 + 1);
    let entry = |e: &Entry| [e.tag, e.position, link(e.next)];
    let matrices = |list: &Option<Vec<Matrix>>| list.iter().flatten().flatten().copied().collect();
    let indices = |list: &Option<Vec<i16>>| list.iter().flatten().map(|&i| i as u16 as u32).collect();
    [
        placed_bones(r.bones.as_deref().unwrap_or(&[]), &names(r)),
        r.buckets.iter().flatten().map(|&first| link(first)).collect(),
        r.entries.iter().flat_map(entry).collect(),
        matrices(&r.inverse),
        matrices(&r.local),
        indices(&r.parents),
        indices(&r.children),
    ]
}

/// Where the names of the bones read lie.
fn names(r: &Reading) -> Vec<Place> {
    let size = |name: &Option<Vec<u8>>| name.as_ref().map_or(0, |n| n.len() as u64);
    let bones = r.bones.iter().flatten();
    bones.zip(&r.name_addresses).map(|(b, &address)| Place { address, size: size(&b.name) }).collect()
}
