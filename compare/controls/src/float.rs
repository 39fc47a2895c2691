//! `FloatControls` of `math`: the four formulas on ordinary numbers.

use crate::sheet::Sheet;
use crate::term::{applied, row};
use oracle::{Mat4, Vec3, Vec4};

const LEFT: [f32; 4] = [-2.62, 0.43, -0.67, 2.65];
const RIGHT: [f32; 4] = [-2.4, 1.81, -2.28, -2.3];
const POINT: [f32; 3] = [1.69, -0.63, 0.72];
const MATRIX: [f32; 16] = [0.74, 0.76, 0.85, 0.96, -2.62, -0.83, 2.73, 2.65, 2.4, 2.17, -2.47, -2.49, 2.01, 2.02, 0.41, 0.49];

pub fn sheet() -> Sheet {
    let mut s = Sheet::new("math/specs/FloatControls.antt");
    let (left, right, point) = (quat(LEFT), quat(RIGHT), Vec3::new(POINT[0], POINT[1], POINT[2]));
    for (name, numbers) in [("left", LEFT), ("right", RIGHT)] {
        s.define(name, applied("quat", &numbers.map(f32::to_bits)));
    }
    s.define("point", applied("vector", &POINT.map(f32::to_bits)));
    s.define("matrix", format!("matrix_of ({})", words(&MATRIX)));
    let Vec4 { x, y, z, w } = left.quat_mul(right);
    s.published("multiplied", "vec4_words (quat_mul left right)", words(&[x, y, z, w]));
    let Vec3 { x, y, z } = left.quat_rotate(point);
    s.published("rotated", "vec3_words (quat_rotate left point)", words(&[x, y, z]));
    s.published("placed", "matrix_words (from_quat_pos left point)", words(&Mat4::from_quat_pos(left, point).0));
    s.published("inverted", "matrix_words (inverse matrix)", words(&Mat4(MATRIX).inverse().0));
    s
}

fn quat([x, y, z, w]: [f32; 4]) -> Vec4 {
    Vec4 { x, y, z, w }
}

fn words(floats: &[f32]) -> String {
    row(&floats.iter().map(|f| f.to_bits()).collect::<Vec<_>>())
}
