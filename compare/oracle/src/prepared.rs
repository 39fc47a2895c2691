//! Published values made ready beforehand, so that a published call can be timed alone.

use crate::bone::{published, Bone};
use crate::joints::{placed_limits, published_rotation, published_translation, RotationLimit, TranslationLimit};
use crate::write::{named_bones, Placed};
use rage_formats::blocks::skeleton::{self, JointRotationLimit, JointTranslationLimit, Joints, Skeleton};
use rage_formats::blocks::{ydr, BlockId, Graph, Pod, Reader, Writer};
use rage_formats::math::Mat4;

/// Bones as the published calls take them.
pub struct PreparedBones(Vec<skeleton::Bone>);

impl PreparedBones {
    pub fn new(bones: &[Bone]) -> Self {
        PreparedBones(bones.iter().map(|b| published(b, None)).collect())
    }

    /// The graph that holds the chains.
    pub fn build_bone_tags(&self) -> Graph {
        let mut g = Graph::new();
        skeleton::build_bone_tags(&mut g, &self.0);
        g
    }

    pub fn build_indices(&self) -> (Vec<i16>, Vec<i16>) {
        skeleton::build_indices(&self.0)
    }

    pub fn build_transformations(&self) -> (Vec<Mat4>, Vec<Mat4>) {
        skeleton::build_transformations(&self.0)
    }
}

/// A reader of a section; each reading wants a new one, for its pool is not empty afterwards.
pub struct PreparedSection(Reader);

impl PreparedSection {
    pub fn new(system: &[u8]) -> Self {
        PreparedSection(ydr::reader(system, &[]))
    }

    /// The graph that holds the joints at `root`, and the reader.
    pub fn joints_read(mut self, root: u64) -> (Graph, Self) {
        let mut g = Graph::new();
        Joints::read(&mut self.0, &mut g, root).expect("a good section");
        (g, self)
    }

    /// The graph that holds the skeleton at `root`, and the reader.
    pub fn read(mut self, root: u64) -> (Graph, Self) {
        let mut g = Graph::new();
        Skeleton::read(&mut self.0, &mut g, root).expect("a good section");
        (g, self)
    }
}

/// Bones and the graph that holds their names; each writing wants new ones, for the blocks go into the graph.
pub struct PreparedRig {
    g: Graph,
    names: Vec<Option<BlockId>>,
    bones: Vec<skeleton::Bone>,
}

impl PreparedRig {
    pub fn new(bones: &[Bone]) -> Self {
        let mut g = Graph::new();
        let (names, bones) = named_bones(&mut g, bones);
        PreparedRig { g, names, bones }
    }

    /// The blocks of the skeleton with its derived tables.
    pub fn derived(self) -> DerivedRig {
        let PreparedRig { mut g, names, bones } = self;
        let root = Skeleton::from_bones(&mut g, bones, 0, 0, 0, 0);
        DerivedRig { g, names, root }
    }

    /// The section, and the blocks that it was written from.
    pub fn write(self) -> (Vec<u8>, DerivedRig) {
        let mut derived = self.derived();
        (derived.write(), derived)
    }
}

/// The blocks of a skeleton, not placed.
pub struct DerivedRig {
    g: Graph,
    names: Vec<Option<BlockId>>,
    root: BlockId,
}

impl DerivedRig {
    /// Places the blocks and writes the section into a buffer of its own.
    pub fn write(&mut self) -> Vec<u8> {
        Placed::skeleton(&mut self.g, self.root, &self.names).write(&self.g).section()
    }

    pub fn placed(mut self) -> PreparedBlocks {
        let placed = Placed::skeleton(&mut self.g, self.root, &self.names);
        PreparedBlocks { g: self.g, placed }
    }
}

/// Blocks that are placed already.
pub struct PreparedBlocks {
    g: Graph,
    placed: Placed,
}

impl PreparedBlocks {
    pub fn of_limits(rotations: &[RotationLimit], translations: &[TranslationLimit]) -> Self {
        let (g, placed) = placed_limits(rotations, translations);
        PreparedBlocks { g, placed }
    }

    /// The section, written into a buffer of its own.
    pub fn write(&self) -> Vec<u8> {
        self.placed.write(&self.g).section()
    }
}

/// Limits as the published `Pod` takes them, and their records.
pub struct PreparedLimits<L> {
    limits: Vec<L>,
    records: Vec<u8>,
}

impl PreparedLimits<JointRotationLimit> {
    pub fn of_rotations(limits: &[RotationLimit]) -> Self {
        Self::new(limits.iter().map(published_rotation).collect())
    }
}

impl PreparedLimits<JointTranslationLimit> {
    pub fn of_translations(limits: &[TranslationLimit]) -> Self {
        Self::new(limits.iter().map(published_translation).collect())
    }
}

impl<L: Pod> PreparedLimits<L> {
    fn new(limits: Vec<L>) -> Self {
        let mut prepared = PreparedLimits { limits, records: Vec::new() };
        prepared.records = prepared.write();
        prepared
    }

    /// The records one behind the other.
    pub fn records(&self) -> &[u8] {
        &self.records
    }

    /// Each record by `Pod::read`.
    pub fn read(&self) -> Vec<L> {
        self.records.chunks_exact(L::SIZE).map(L::read).collect()
    }

    /// Each limit by `Pod::write`, into one buffer.
    pub fn write(&self) -> Vec<u8> {
        let mut w = Writer::new(0, L::SIZE * self.limits.len());
        self.limits.iter().for_each(|limit| limit.write(&mut w));
        w.into_inner()
    }
}
