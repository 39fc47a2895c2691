//! Parts of an input one step smaller, the greatest steps first.

use cases::rows::BONE;

/// Byte strings one step smaller: as `shorter_bytes`, then with one byte lowered.
pub fn smaller_bytes(bytes: &[u8]) -> impl Iterator<Item = Vec<u8>> + '_ {
    let steps = (0..bytes.len()).filter(|&at| bytes[at] > 1).flat_map(|at| [(at, bytes[at] / 2), (at, bytes[at] - 1)]);
    let lowered = steps.map(|(at, lower)| {
        let mut lowered = bytes.to_vec();
        lowered[at] = lower;
        lowered
    });
    shorter_bytes(bytes).chain(lowered)
}

/// Byte strings cut short, then with bytes made 0.
pub fn shorter_bytes(bytes: &[u8]) -> impl Iterator<Item = Vec<u8>> + '_ {
    let n = bytes.len();
    let lengths = [n / 2, n - n / 4, n.saturating_sub(16), n.saturating_sub(1)].into_iter().filter(move |&l| l < n);
    let runs = [64, 16, 4, 1].into_iter().flat_map(move |run| (0..n).step_by(run).map(move |at| at..n.min(at + run)));
    let zeroed = runs.filter(|run| bytes[run.clone()].iter().any(|&b| b != 0)).map(|run| {
        let mut zeroed = bytes.to_vec();
        zeroed[run].fill(0);
        zeroed
    });
    lengths.map(|l| bytes[..l].to_vec()).chain(zeroed)
}

/// Bone tables one step smaller, each with the number of bones asked for: without some rows, then with one word 0.
pub fn smaller_bones(table: &[u32], n: usize) -> impl Iterator<Item = (Vec<u32>, usize)> + '_ {
    const FEW: usize = 64;
    let rows = table.len() / BONE;
    let few = if rows <= FEW { rows } else { 0 };
    let cuts = [rows / 2..rows, 0..rows / 2].into_iter().chain((0..few).map(|row| row..row + 1));
    let cut = cuts.filter(|cut| !cut.is_empty()).map(move |cut| {
        let n = if n <= rows { n.min(rows - cut.len()) } else { n };
        ([&table[..BONE * cut.start], &table[BONE * cut.end..]].concat(), n)
    });
    let zeroed = (0..if few == rows { table.len() } else { 0 }).filter(|&at| table[at] != 0).map(move |at| {
        let mut zeroed = table.to_vec();
        zeroed[at] = 0;
        (zeroed, n)
    });
    (rows > 0).then_some((Vec::new(), n)).into_iter().chain(cut).chain(zeroed)
}

/// What tables of these lengths have more than they must have, with less in one of them.
pub fn smaller_room<const N: usize>(room: [isize; N], lengths: Vec<usize>) -> impl Iterator<Item = [isize; N]> {
    let tables = lengths.into_iter().enumerate().filter(|&(_, length)| length > 0);
    let steps = tables.flat_map(move |(table, length)| {
        let spare = (room[table] > 0).then_some(room[table]);
        [spare, Some(length.div_ceil(2) as isize), Some(1)].into_iter().flatten().map(move |less| (table, less))
    });
    steps.map(move |(table, less)| {
        let mut room = room;
        room[table] -= less;
        room
    })
}
