//! The section of docs/FORMAT.md from the published `Block::write` bodies: each block is placed where docs/FORMAT.md lays it and
//! writes itself there.

use crate::bone::{published, Bone};
use crate::derive::settle_nan;
use crate::refusal::number;
use rage_formats::blocks::base::{PointerArray64, RawBytes, StringBlock, StructArray};
use rage_formats::blocks::skeleton::{self, Skeleton, SkeletonBoneTag};
use rage_formats::blocks::{ydr, BlockId, Graph, Section, Writer};
use rage_formats::math::Mat4;
use rage_formats::resource::SYSTEM_BASE;
use std::ops::Range;

/// The length of a tag entry.
const ENTRY: usize = 16;

/// What writing gives.
#[derive(Clone, Debug, PartialEq, Eq)]
pub enum Written {
    /// 2, 3, 4 or 6.
    Refused(u8),
    /// The section; its root is 50000000 hex.
    Section(Vec<u8>),
}

impl Written {
    /// The section of bones that are known to be taken.
    pub fn section(self) -> Vec<u8> {
        match self {
            Written::Section(bytes) => bytes,
            Written::Refused(n) => panic!("writing was refused: {n}"),
        }
    }
}

/// Writes the bones with the four free words (28, 80, 84, 88). Tests 2, 4, 3.
///
/// Derived NaN words outside column 4 are written as 7FC00000 hex, as docs/FORMAT.md has it.
pub fn write(bones: &[Bone], free: [u32; 4]) -> Written {
    if bones.len() > 65_535 {
        return Written::Refused(2);
    }
    if !names_fit(bones) {
        return Written::Refused(4);
    }
    let mut g = Graph::new();
    let (names, bones) = named_bones(&mut g, bones);
    let root = Skeleton::from_bones(&mut g, bones, free[0], free[1], free[2], free[3]);
    settle_matrices(&mut g);
    let placed = Placed::skeleton(&mut g, root, &names);
    placed.write(&g)
}

/// Whether no name is over 255 bytes or holds a zero byte.
pub fn names_fit(bones: &[Bone]) -> bool {
    bones.iter().flat_map(|b| &b.name).all(|name| name.len() <= 255 && !name.contains(&0))
}

/// The blocks of the names, added to the graph, and the published bones.
pub(crate) fn named_bones(g: &mut Graph, bones: &[Bone]) -> (Vec<Option<BlockId>>, Vec<skeleton::Bone>) {
    let names: Vec<Option<BlockId>> = bones.iter().map(|b| b.name.as_ref().map(|n| add_name(g, n))).collect();
    let bones = bones.iter().zip(&names).map(|(b, &name)| published(b, name)).collect();
    (names, bones)
}

/// The name's block. A name that is not UTF-8 does not fit a `StringBlock`; its bytes and the zero
/// are then a block of raw bytes.
fn add_name(g: &mut Graph, name: &[u8]) -> BlockId {
    match std::str::from_utf8(name) {
        Ok(text) => g.add(StringBlock(text.to_owned())),
        Err(_) => g.add(RawBytes { data: [name, &[0]].concat(), section: Section::System }),
    }
}

fn settle_matrices(g: &mut Graph) {
    for id in ydr::ids_of::<StructArray<Mat4>>(g) {
        for m in &mut g.get_mut::<StructArray<Mat4>>(id).items {
            *m = Mat4(settle_nan(&m.0.map(f32::to_bits)).map(f32::from_bits));
        }
    }
}

/// Blocks in the order in which docs/FORMAT.md lays them, each in its place.
pub(crate) struct Placed {
    order: Vec<BlockId>,
    parts: Vec<Part>,
    end: usize,
}

/// Blocks of the order that lie one behind the other, and their bytes.
struct Part {
    blocks: Range<usize>,
    bytes: Range<usize>,
}

impl Placed {
    fn new(blocks: usize) -> Self {
        Placed { order: Vec::with_capacity(blocks), parts: Vec::with_capacity(9), end: 0 }
    }

    /// docs/FORMAT.md's parts in order from 50000000 hex: skeleton, buckets, entries in bucket and chain order, bones, names in bone order, lists.
    pub fn skeleton(g: &mut Graph, root: BlockId, names: &[Option<BlockId>]) -> Self {
        let mut placed = Placed::new(2 * names.len() + 7);
        let &Skeleton { bone_tags, bones, transforms_inv, transforms, parent_indices, child_indices, .. } =
            g.get::<Skeleton>(root);
        placed.add(g, [Some(root)]);
        placed.add(g, [bone_tags]);
        placed.add_entries(g, bone_tags);
        placed.add(g, [bones]);
        placed.add(g, names.iter().copied());
        [transforms_inv, transforms, parent_indices, child_indices].into_iter().for_each(|list| placed.add(g, [list]));
        placed
    }

    /// Parts of a block each, or none.
    pub fn of<const N: usize>(g: &mut Graph, parts: [Option<BlockId>; N]) -> Self {
        let mut placed = Placed::new(N);
        parts.into_iter().for_each(|part| placed.add(g, [part]));
        placed
    }

    /// Places a part on a multiple of 16.
    fn add(&mut self, g: &mut Graph, blocks: impl IntoIterator<Item = Option<BlockId>>) {
        let (first, start) = (self.order.len(), self.end);
        for id in blocks.into_iter().flatten() {
            ydr::place(g, id, SYSTEM_BASE + self.end as u64);
            self.end += g.length(id);
            self.order.push(id);
        }
        self.close(first, start);
    }

    /// As `add`, the entries of chains, whose length is known.
    fn add_entries(&mut self, g: &mut Graph, bone_tags: Option<BlockId>) {
        let (first, start) = (self.order.len(), self.end);
        for &bucket in bone_tags.iter().flat_map(|&tags| &g.get::<PointerArray64>(tags).items) {
            let mut at = bucket;
            while let Some(id) = at {
                self.order.push(id);
                at = g.get::<SkeletonBoneTag>(id).next;
            }
        }
        for &id in &self.order[first..] {
            ydr::place(g, id, SYSTEM_BASE + self.end as u64);
            self.end += ENTRY;
        }
        self.close(first, start);
    }

    fn close(&mut self, first: usize, start: usize) {
        self.parts.push(Part { blocks: first..self.order.len(), bytes: start..self.end });
        self.end = self.end.next_multiple_of(16);
    }

    /// Runs each block's `write`; a refusal is the first block's that refuses.
    pub fn write(&self, g: &Graph) -> Written {
        let mut w = Writer::new(SYSTEM_BASE, self.end);
        for Part { blocks, bytes } in &self.parts {
            w.seek(SYSTEM_BASE + bytes.start as u64);
            for &id in &self.order[blocks.clone()] {
                // the block before it wrote as many bytes as it has
                assert_eq!(w.position(), g.position(id), "a block behind one that wrote another length than its own");
                if let Err(e) = ydr::write_block(&mut w, g, id) {
                    return Written::Refused(number(&e.to_string()));
                }
            }
            assert_eq!(w.position(), SYSTEM_BASE + bytes.end as u64, "a part that wrote another length than its own");
        }
        let bytes = w.into_inner();
        assert_eq!(bytes.len(), self.end, "a block wrote past the place it was given");
        Written::Section(bytes)
    }
}
