//! A bone and a matrix as plain words, and their way into the published types.

use rage_formats::blocks::skeleton;
use rage_formats::blocks::BlockId;
use rage_formats::math::{Mat4, Vec3, Vec4};

/// Sixteen float words in stored order.
pub type Matrix = [u32; 16];

/// A bone's stored fields; floats as words.
#[derive(Clone, Debug, PartialEq, Eq)]
pub struct Bone {
    pub rotation: [u32; 4],
    pub translation: [u32; 3],
    pub scale: [u32; 3],
    pub next_sibling: i16,
    pub parent: i16,
    /// The name's bytes without the zero; no name and an empty name are two.
    pub name: Option<Vec<u8>>,
    pub flags: u16,
    pub index: i16,
    pub tag: u16,
    /// Column 4 of the local matrix.
    pub kept: [u32; 4],
}

pub(crate) fn vec3(words: [u32; 3]) -> Vec3 {
    let [x, y, z] = words.map(f32::from_bits);
    Vec3 { x, y, z }
}

pub(crate) fn vec4(words: [u32; 4]) -> Vec4 {
    let [x, y, z, w] = words.map(f32::from_bits);
    Vec4 { x, y, z, w }
}

pub(crate) fn vec3_words(v: Vec3) -> [u32; 3] {
    [v.x, v.y, v.z].map(f32::to_bits)
}

pub(crate) fn vec4_words(v: Vec4) -> [u32; 4] {
    [v.x, v.y, v.z, v.w].map(f32::to_bits)
}

pub(crate) fn matrix_words(m: &Mat4) -> Matrix {
    m.0.map(f32::to_bits)
}

/// The published bone, its name given by the block that holds it.
pub(crate) fn published(bone: &Bone, name: Option<BlockId>) -> skeleton::Bone {
    skeleton::Bone {
        rotation: vec4(bone.rotation),
        translation: vec3(bone.translation),
        scale: vec3(bone.scale),
        next_sibling: bone.next_sibling,
        parent: bone.parent,
        name,
        flags: bone.flags,
        index: bone.index,
        tag: bone.tag,
        transform_unk: vec4(bone.kept),
    }
}

/// The plain bone of a published one and its name's bytes.
pub(crate) fn plain(bone: &skeleton::Bone, name: Option<Vec<u8>>) -> Bone {
    Bone {
        rotation: vec4_words(bone.rotation),
        translation: vec3_words(bone.translation),
        scale: vec3_words(bone.scale),
        next_sibling: bone.next_sibling,
        parent: bone.parent,
        name,
        flags: bone.flags,
        index: bone.index,
        tag: bone.tag,
        kept: vec4_words(bone.transform_unk),
    }
}
