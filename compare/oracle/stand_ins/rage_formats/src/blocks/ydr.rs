//! Stand-in for the module `ydr`: what the oracle needs of the private parts of `blocks`. A child
//! module sees them, so that no published file is changed.

use super::{Block, BlockId, Cursor, Graph, Reader, Writer};
use anyhow::Result;
use std::collections::HashMap;

/// A reader of two decoded halves, its pool empty.
pub fn reader(system: &[u8], graphics: &[u8]) -> Reader {
    Reader { sys: system.to_vec(), gfx: graphics.to_vec(), pool: HashMap::new() }
}

/// The number of distinct addresses in the pool.
pub fn pool_rows(r: &Reader) -> usize {
    r.pool.len()
}

/// The section that an address lies in, and its place there, as `Reader::section` finds them.
pub fn located(r: &Reader, va: u64) -> Result<(&[u8], usize)> {
    let (data, base) = r.section(va)?;
    Ok((data, (va - base) as usize))
}

/// A cursor over `data` at any position, also outside it; its first byte has the address `base`.
pub fn cursor_at(data: &[u8], pos: usize, base: u64) -> Cursor<'_> {
    Cursor { data, pos, base, overrun: false }
}

/// The blocks of type `B`, in the order in which they were added.
pub fn ids_of<B: Block>(g: &Graph) -> Vec<BlockId> {
    (0..g.blocks.len() as u32).map(BlockId).filter(|&id| g.try_get::<B>(id).is_some()).collect()
}

/// Gives a block its address.
pub fn place(g: &mut Graph, id: BlockId, va: u64) {
    g.positions[id.0 as usize] = va;
}

/// Runs the block's own `write` where the writer stands.
pub fn write_block(w: &mut Writer, g: &Graph, id: BlockId) -> Result<()> {
    g.blocks[id.0 as usize].write(w, g)
}
