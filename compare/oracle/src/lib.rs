//! The published Rust, built unchanged, behind plain types: words, bytes and the numbers of refusals.
//!
//! `read`, `derive`, `write` and `joints` run the published bodies. `check` joins them as docs/FORMAT.md's
//! "Lookup and check" says, `lookup` is read from there over the published `Reader`.

mod bone;
mod check;
mod cursor;
mod derive;
mod fields;
mod header;
mod joints;
mod lookup;
mod names;
mod prepared;
mod prepared_check;
mod read;
mod refusal;
mod rows;
mod setters;
mod write;

pub use bone::{Bone, Matrix};
pub use check::{check, check_reading, Verdict};
pub use cursor::cursor_in_turn;
pub use derive::{
    build_bone_tags, build_indices, build_transformations, num_hash_buckets, settle_nan, Chains, COLUMN4, SETTLED_NAN,
};
pub use fields::{put_u16, put_u32, put_u64, u16_at, u32_at, u64_at};
pub use joints::{
    fresh_rotation_limit, joints_read, joints_write, rotation_limit_read, rotation_limit_write, translation_limit_read,
    translation_limit_write, Joints, JointsAnswer, RotationLimit, TranslationLimit,
};
pub use lookup::{lookup, Found};
pub use names::NameBytes;
pub use prepared::{DerivedRig, PreparedBlocks, PreparedBones, PreparedLimits, PreparedRig, PreparedSection};
pub use prepared_check::{derive_read, Derived};
pub use rage_formats::hash::rage_joaat;
pub use rage_formats::math::{Mat4, Vec3, Vec4};
pub use rage_formats::resource::{ResReader, GRAPHICS_BASE, SYSTEM_BASE};
pub use read::{read, Answer, Entry, Reading};
pub use refusal::number;
pub use rows::{read_rows, Rows};
pub use setters::{set_column4, set_scale_vector};
pub use write::{names_fit, write, Written};
