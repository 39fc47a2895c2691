//! A derivation that is asked for, and the status that docs/FORMAT.md gives it.

use crate::difference::Input;
use crate::smaller::{smaller_bones, smaller_room};
use cases::{rows, tables};
use link::DONE;

#[derive(Clone, Copy, Debug, PartialEq, Eq)]
pub enum Call {
    Tags,
    Indices,
    Matrices,
}
use Call::*;

impl Call {
    pub fn name(self) -> &'static str {
        match self {
            Tags => "tags",
            Indices => "indices",
            Matrices => "matrices",
        }
    }

    /// The words of each table that `n` bones need (docs/FORMAT.md, "Who can cause a refusal"), the bones table apart.
    pub fn sizes(self, n: usize) -> Vec<usize> {
        let [buckets, entries, inverse, local, parents, children, pending] = tables::derived(n);
        match self {
            Tags => vec![buckets, rows::ENTRY * entries],
            Indices => vec![parents, children, 2 * pending],
            Matrices => vec![rows::MATRIX * inverse, rows::MATRIX * local],
        }
    }
}

/// The most bones that are not refused.
pub const MOST: usize = 65_535;

/// A call and what it is lent.
#[derive(Clone, Debug)]
pub struct DeriveInput {
    pub call: Call,
    /// The bones table.
    pub bones: Vec<u32>,
    /// The number of bones asked for.
    pub n: usize,
    /// How many words each table has more than `n` bones need.
    pub room: [isize; 3],
    /// The seed of what the tables hold at entry.
    pub dirt: u64,
}

impl DeriveInput {
    /// The words of each lent table. A count of more than 65,536 is refused whatever they are.
    pub fn lengths(&self) -> Vec<usize> {
        let sizes = self.call.sizes(if self.n <= MOST + 1 { self.n } else { 0 });
        sizes.iter().zip(self.room).map(|(&size, room)| size.saturating_add_signed(room)).collect()
    }

    /// 2, then 1, as docs/FORMAT.md has it.
    pub fn status(&self) -> u32 {
        let fits = || {
            let mut tables = self.lengths().into_iter().zip(self.call.sizes(self.n));
            self.bones.len() >= rows::BONE * self.n && tables.all(|(length, size)| length >= size)
        };
        match self.n {
            n if n > MOST => 2,
            _ if fits() => DONE,
            _ => 1,
        }
    }
}

impl Input for DeriveInput {
    fn smaller(&self) -> impl Iterator<Item = Self> {
        let bones = smaller_bones(&self.bones, self.n).map(|(bones, n)| DeriveInput { bones, n, ..self.clone() });
        bones.chain(smaller_room(self.room, self.lengths()).map(|room| DeriveInput { room, ..self.clone() }))
    }

    fn text(&self) -> String {
        let row = |row: &[u32]| row.iter().map(|w| format!(" {w:x}")).collect::<String>();
        let bones: String = self.bones.chunks(rows::BONE).map(|r| format!("bone{}\n", row(r))).collect();
        format!("call {:?}\nn {}\nroom {:?}\ndirt {}\n{bones}", self.call, self.n, self.room, self.dirt)
    }
}
