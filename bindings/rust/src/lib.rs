//! A safe interface over `librig.a`, the proved library for skeleton sections and joints.
//!
//! The game finds a bone by its tag down a chain, and a chain that is cut loses every bone behind the cut. Before upload, one call
//! tells whether all lists of a section are those that follow from its bones, and if not, which one is wrong:
//!
//! ```
//! # const CUT: &[u8] = include_bytes!(concat!(env!("CARGO_MANIFEST_DIR"), "/../../examples/horse_cut.section"));
//! use rig::{check, Refusal, SYSTEM_BASE};
//!
//! let refusal = check(CUT, &[], SYSTEM_BASE).unwrap_err();
//! assert_eq!(refusal, Refusal::Chains);
//! assert_eq!(refusal.number(), 21);
//! ```
//!
//! - [`check`] a section; [`lookup`] a tag as the game does; [`find_by_name`] a bone.
//! - [`Skeleton::read`] it into [`Bone`]s and lists, and [`write()`] bones as a section.
//! - Derive single lists: [`build_bone_tags`], [`build_indices`], [`build_transformations`].
//! - [`Joints`] read and write rotation and translation limits; a [`RotationLimit`] or a [`TranslationLimit`] its own record.
//!
//! A section is its two halves, system and graphics, of which one may be empty, and the address of the record in question, the
//! root. Addresses in the halves start at [`SYSTEM_BASE`] and [`GRAPHICS_BASE`].
//!
//! # What can be relied on
//!
//! Every call ends on any bytes, with a result or a [`Refusal`]. The library is lent its tables by this crate: as the section's
//! stored counts tell, no more than its bytes can fill, and longer ones where a chain wants more. So a table or a buffer that is
//! too short (1 and 5) is never a caller's concern. Should the linked library answer with a status outside its contract, or be
//! of another number (`rig_abi`) than the exports that this crate declares, the call panics.
//!
//! No call holds or shares anything between calls: all of them may be made from any thread at the same time.

#![deny(missing_docs, unsafe_code, unsafe_op_in_unsafe_fn)]

/// The code of the README is tested too.
#[cfg(doctest)]
#[doc = include_str!("../README.md")]
mod readme {}

mod bone;
mod chains;
mod check;
mod derive;
mod ffi;
mod find;
mod float;
mod joints;
mod refusal;
mod section;
mod skeleton;
mod tables;
mod write;

pub use bone::Bone;
pub use chains::{Chains, TagEntry};
pub use check::{check, Checked};
pub use derive::{build_bone_tags, build_indices, build_transformations, num_hash_buckets, Indices, Transformations};
pub use find::{find_by_key, find_by_name, lookup, rage_joaat};
pub use float::{floats, Float, Matrix};
pub use joints::{Joints, RotationLimit, TranslationLimit};
pub use refusal::Refusal;
pub use section::{GRAPHICS_BASE, SYSTEM_BASE};
pub use skeleton::{FreeWords, Skeleton};
pub use write::write;
