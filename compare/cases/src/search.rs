//! A plain model of the pool's search (crates/blocks/src/pool.rt) that counts the rows looked at, as anybody can make one who
//! knows its constants.

/// The rows, from its home on, in which an address is sought first.
const NEAR: usize = 16;

/// The row at which the search for an address starts.
pub fn home(va: u64, rows: usize) -> usize {
    const WORD: u64 = 1 << 32;
    let spread = |x: u64, n: u64| x % WORD * 2_654_435_769 % WORD * n / WORD;
    let n = rows as u64;
    let row = if n < 8_192 { spread(va, n) } else { (spread(va / 2_048, n % WORD) + va % 2_048 * 7 / 16) % n };
    row as usize
}

/// What leads down the tree, a bit a row, the lowest first: the address, the lowest 4 of its low 32 bits behind the others.
fn key(va: u64) -> u64 {
    va >> 32 << 32 | (va as u32).rotate_right(4) as u64
}

/// The rows of a pool, and a tree of those that were not stored near the home of their address.
pub struct Pool {
    /// 0 is a free row: no address asked for is 0.
    rows: Vec<u64>,
    /// The two rows below each row of the tree, none or one more than the row.
    below: Vec<[u32; 2]>,
    /// The first row of the tree, as in `below`.
    top: u32,
    /// From here on no row is free.
    free: usize,
}

/// Where a search ended.
#[derive(Clone, Copy, Debug, PartialEq, Eq)]
pub enum End {
    /// At the row of the address.
    Known,
    /// At a free row near the home.
    Near(usize),
    /// In the tree, below a row and on a side of it, or with no row at all.
    Below(Option<(usize, usize)>),
}

impl Pool {
    pub fn new(rows: usize) -> Self {
        Pool { rows: vec![0; rows], below: vec![[0; 2]; rows], top: 0, free: rows }
    }

    /// Where the search for an address ends, and at how many rows it looks.
    pub fn search(&self, va: u64) -> (End, usize) {
        let (home, mut looked) = (home(va, self.rows.len()), 0);
        for row in home..self.rows.len().min(home + NEAR) {
            looked += 1;
            match self.rows[row] {
                0 => return (End::Near(row), looked),
                known if known == va => return (End::Known, looked),
                _ => {}
            }
        }
        let (mut key, mut next, mut last) = (key(va), self.top, None);
        while next != 0 {
            let row = next as usize - 1;
            looked += 1;
            if self.rows[row] == va {
                return (End::Known, looked);
            }
            let side = (key & 1) as usize;
            key >>= 1;
            last = Some((row, side));
            next = self.below[row][side];
        }
        (End::Below(last), looked)
    }

    /// Stores an address where its search ended; nothing where no row is free.
    pub fn store(&mut self, va: u64, end: End) {
        match end {
            End::Known => {}
            End::Near(row) => self.rows[row] = va,
            End::Below(last) => {
                let Some(row) = self.rows[..self.free].iter().rposition(|&known| known == 0) else { return };
                self.free = row;
                self.rows[row] = va;
                let link = last.map_or(&mut self.top, |(above, side)| &mut self.below[above][side]);
                *link = row as u32 + 1;
            }
        }
    }
}
