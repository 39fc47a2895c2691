//! Our library `rig`: its exports and safe wrappers. The only `unsafe` of the workspace is in
//! `exports`.

mod checks;
#[cfg(rig)]
mod exports;

pub use checks::Checks;

/// The status of a call that did what was asked; a refusal is its number.
pub const DONE: u32 = 0;

/// The status of reading at root 0.
pub const NONE: u32 = 100;

/// The single fields of `rig`. A comparison takes any implementation of its trait, so that a faulty one can
/// be put in its place.
pub trait Fields: Sync {
    fn u16_at(&self, s: &[u8], at: usize) -> u16;
    fn u32_at(&self, s: &[u8], at: usize) -> u32;
    fn u64_at(&self, s: &[u8], at: usize) -> u64;
    fn put16(&self, d: &mut [u8], at: usize, v: u16) -> bool;
    fn put32(&self, d: &mut [u8], at: usize, v: u32) -> bool;
    fn put64(&self, d: &mut [u8], at: usize, v: u64) -> bool;
}

/// The tables that follow from the first `n` bones of a table. A call gives its status; the count is that of
/// the buckets or child entries, 0 after a refusal.
pub trait Derive: Sync {
    fn num_hash_buckets(&self, n: usize) -> usize;
    fn build_bone_tags(&self, bones: &[u32], n: usize, buckets: &mut [u32], entries: &mut [u32], count: &mut usize) -> u32;
    fn build_indices(
        &self,
        bones: &[u32],
        n: usize,
        parents: &mut [u16],
        children: &mut [u16],
        pending: &mut [u32],
        count: &mut usize,
    ) -> u32;
    fn build_transformations(&self, bones: &[u32], n: usize, inverse: &mut [u32], local: &mut [u32]) -> u32;
}

/// The hash of names.
pub trait Hash: Sync {
    fn rage_joaat(&self, s: &[u8]) -> u32;
}

/// The methods of a cursor in turn: fifteen numbers at the front of `out`, and true; false where fewer fit.
pub trait Cursor: Sync {
    fn in_turn(&self, s: &[u8], pos: usize, base: u64, n: usize, out: &mut [u64]) -> bool;
}

/// The setters of a matrix. A matrix is its sixteen float words, a vector its three or four.
pub trait Setters: Sync {
    fn set_scale_vector(&self, m: &mut [u32; 16], s: &[u32; 3]);
    fn set_column4(&self, m: &mut [u32; 16], v: &[u32; 4]);
}

/// The kind word, the two stored counts, and for each list whether it stands and how many limits it has.
pub type JointFields = [u32; 7];

/// The rows of the two limits, and their records.
pub type RotationRow = [u32; 49];
pub type RotationRecord = [u8; 192];
pub type TranslationRow = [u32; 16];
pub type TranslationRecord = [u8; 64];

/// Joints, and one limit at a time. A call gives its status; writing joints counts its bytes, 0 after a refusal. A limit is read
/// whatever its record holds.
pub trait Joints: Sync {
    fn joints_read(
        &self,
        system: &[u8],
        graphics: &[u8],
        root: u64,
        rotation: &mut [u32],
        translation: &mut [u32],
        fields: &mut JointFields,
    ) -> u32;
    fn joints_write(&self, rotation: &[u32], r: usize, translation: &[u32], t: usize, out: &mut [u8], count: &mut usize) -> u32;
    fn fresh_rotation_limit(&self, row: &mut RotationRow);
    fn rotation_limit_read(&self, record: &RotationRecord, row: &mut RotationRow);
    fn rotation_limit_write(&self, row: &RotationRow, out: &mut [u8]) -> u32;
    fn translation_limit_read(&self, record: &TranslationRecord, row: &mut TranslationRow);
    fn translation_limit_write(&self, row: &TranslationRow, out: &mut [u8]) -> u32;
}

/// The kind word, the four free words, the stored counts of buckets, bones and child entries; then of buckets, bones,
/// inverse and local matrices, parents and children whether the list stands and its length, of matrices in words.
pub type SkeletonFields = [usize; 20];

/// The two halves of a section, or of bytes that hold names.
#[derive(Clone, Copy)]
pub struct Halves<'a> {
    pub system: &'a [u8],
    pub graphics: &'a [u8],
}

/// The tables that reading is lent.
pub struct ReadTables<'a> {
    pub bones: &'a mut [u32],
    pub buckets: &'a mut [u32],
    pub entries: &'a mut [u32],
    pub inverse: &'a mut [u32],
    pub local: &'a mut [u32],
    pub parents: &'a mut [u16],
    pub children: &'a mut [u16],
    pub pool: &'a mut [u64],
}

/// The bones that are to be written: the first `n` of a table, the bytes in which their names lie, and the four free words.
#[derive(Clone, Copy)]
pub struct WrittenBones<'a> {
    pub table: &'a [u32],
    pub n: usize,
    pub names: Halves<'a>,
    pub free: &'a [u32; 4],
}

/// The working tables that writing is lent, and the check for deriving.
pub struct WriteTables<'a> {
    pub buckets: &'a mut [u32],
    pub entries: &'a mut [u32],
    pub inverse: &'a mut [u32],
    pub local: &'a mut [u32],
    pub parents: &'a mut [u16],
    pub children: &'a mut [u16],
    pub pending: &'a mut [u32],
}

/// Skeletons. A call gives its status; writing counts its bytes, 0 after a refusal.
pub trait Skeletons: Sync {
    fn read(&self, section: Halves, root: u64, tables: ReadTables, fields: &mut SkeletonFields) -> u32;
    fn write(&self, bones: WrittenBones, tables: WriteTables, out: &mut [u8], count: &mut usize) -> u32;
}

/// Whether this crate was built with a library.
pub const LINKED: bool = cfg!(rig);

macro_rules! groups {
    ($($name:ident: $exports:ident if $group:ident;)*) => {$(
        /// The group of exports, if the library has it.
        pub fn $name() -> Option<&'static dyn $exports> {
            #[cfg($group)]
            return Some(&exports::Rig);
            #[cfg(not($group))]
            None
        }
    )*};
}

groups! {
    fields: Fields if rig_fields;
    derive: Derive if rig_derive;
    hash: Hash if rig_hash;
    cursor: Cursor if rig_cursor;
    setters: Setters if rig_setters;
    joints: Joints if rig_joints;
    skeletons: Skeletons if rig_skeletons;
    checks: Checks if rig_checks;
}
