//! The published setters of a matrix on plain words.

use crate::bone::{matrix_words, vec3, vec4, Matrix};
use rage_formats::math::Mat4;

pub fn set_scale_vector(m: &Matrix, s: [u32; 3]) -> Matrix {
    let mut set = Mat4(m.map(f32::from_bits));
    set.set_scale_vector(vec3(s));
    matrix_words(&set)
}

pub fn set_column4(m: &Matrix, v: [u32; 4]) -> Matrix {
    let mut set = Mat4(m.map(f32::from_bits));
    set.set_column4(vec4(v));
    matrix_words(&set)
}
