//! Sizes and field offsets of the stored records (docs/FORMAT.md, "Records").

pub mod skeleton {
    pub const SIZE: usize = 112;
    pub const BUCKETS: usize = 16;
    pub const BUCKET_COUNT: usize = 24;
    /// The pointer to the first bone, 16 bytes into the bones block.
    pub const BONES: usize = 32;
    pub const INVERSE: usize = 40;
    pub const LOCAL: usize = 48;
    pub const PARENTS: usize = 56;
    pub const CHILDREN: usize = 64;
    pub const BONE_COUNT: usize = 94;
    pub const CHILD_COUNT: usize = 96;
    pub const POINTERS: [usize; 6] = [BUCKETS, BONES, INVERSE, LOCAL, PARENTS, CHILDREN];
    pub const COUNTS: [usize; 3] = [BUCKET_COUNT, BONE_COUNT, CHILD_COUNT];
    pub const KIND_WORD: u32 = 1_080_114_336;
}

pub mod bone {
    pub const SIZE: usize = 80;
    pub const PARENT: usize = 50;
    pub const NAME: usize = 56;
    pub const INDEX: usize = 66;
    pub const TAG: usize = 68;
    pub const SECOND_INDEX: usize = 70;
}

pub mod bones_block {
    pub const HEADER: usize = 16;
}

pub mod entry {
    pub const SIZE: usize = 16;
    pub const TAG: usize = 0;
    pub const POSITION: usize = 4;
    pub const NEXT: usize = 8;
}

pub mod matrix {
    pub const SIZE: usize = 64;
}

pub mod joints {
    pub const SIZE: usize = 64;
    pub const KIND_WORD: u32 = 1_080_130_656;
    pub const ROTATIONS: usize = 16;
    pub const TRANSLATIONS: usize = 24;
    pub const ROTATION_COUNT: usize = 48;
    pub const TRANSLATION_COUNT: usize = 50;
    pub const ROTATION_LIMIT: usize = 192;
    pub const TRANSLATION_LIMIT: usize = 64;
}
