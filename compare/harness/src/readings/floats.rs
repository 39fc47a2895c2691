//! Deriving: float arithmetic.

use super::ask::build_transformations;
use cases::trial::{plain_bone, NONE, ONE};
use oracle::{settle_nan, Bone, Mat4, Matrix, Vec3, Vec4, SETTLED_NAN};

const MINUS_ZERO: u32 = 0x8000_0000;
const INFINITY: u32 = 0x7F80_0000;
/// 2 to the -75: its square rounds to 0, twice its square is the least subnormal.
const TINY: u32 = 0x1A00_0000;
const LEAST: u32 = 0x0000_0001;

/// The local and the inverse matrix of one root.
fn matrices(change: impl FnOnce(&mut Bone)) -> (Matrix, Matrix) {
    let mut bone = plain_bone(0, NONE);
    change(&mut bone);
    let (local, inverse) = build_transformations(&[bone]);
    (local[0], inverse[0])
}

/// x * y + z * w with z * w = -(x * y rounded): 0 when each product rounds, 2 to the -24 when fused.
pub fn no_fused_multiply_add() {
    let a = f32::from_bits(0x3F80_0800);
    let product = a * a;
    assert_ne!(a.mul_add(a, -product), 0.0);
    let (local, _) = matrices(|b| b.rotation = [a.to_bits(), a.to_bits(), (-product).to_bits(), ONE]);
    assert_eq!(local[1], 0);
}

/// The diagonal 1 times the least subnormal.
pub fn subnormals_are_kept() {
    let (local, _) = matrices(|b| b.scale = [LEAST; 3]);
    assert_eq!([local[0], local[5], local[10]], [LEAST; 3]);
}

/// 0 of column 4 times an infinite translation makes NaN in every word outside it.
pub fn zero_column_terms_are_kept() {
    let (_, inverse) = matrices(|b| b.translation[0] = INFINITY);
    for (i, &word) in inverse.iter().enumerate() {
        assert_eq!(f32::from_bits(word).is_nan(), i % 4 != 3, "word {i}");
    }
}

/// The inverse of the identity.
pub fn minus_zero_occurs() {
    let (_, inverse) = matrices(|_| {});
    let at: Vec<usize> = (0..16).filter(|&i| inverse[i] == MINUS_ZERO).collect();
    assert_eq!(at, [1, 4, 6, 9, 12, 14]);
}

/// Two words -0, the others +0: the determinant is -0 and the inverse sixteen +0.
pub fn determinant_minus_zero_is_singular() {
    let mut m = [0.0f32; 16];
    (m[0], m[2]) = (-0.0, -0.0);
    // the sum as `inverse` writes it, with every cofactor +0
    let determinant: f32 = m[0] * 0.0 - m[1] * 0.0 + m[2] * 0.0 - m[3] * 0.0;
    assert_eq!(determinant.to_bits(), MINUS_ZERO);
    assert_eq!(Mat4(m).inverse().0.map(f32::to_bits), [0; 16]);
}

/// `quat_rotate` computes (x * 2) * y, `from_quat_pos` 2 * (x * y + z * w).
pub fn doubling_order() {
    let tiny = f32::from_bits(TINY);
    let q = Vec4::new(tiny, tiny, 0.0, 0.0);
    let rotated = q.quat_rotate(Vec3::new(0.0, 1.0, 0.0));
    assert_eq!(rotated.x.to_bits(), LEAST);
    assert_eq!(Mat4::from_quat_pos(q, Vec3::ZERO).0[1].to_bits(), 0);
}

/// The Rust copies a translation's NaN; with us words 12 to 14 are derived words, 7FC00000 hex, and only
/// column 4 keeps its bits.
pub fn local_translation_nan_is_derived() {
    const NAN: u32 = 0x7FC0_1234;
    let (local, _) = matrices(|b| (b.translation, b.kept) = ([NAN; 3], [NAN; 4]));
    assert_eq!(local[12..], [NAN; 4]);
    assert_eq!(settle_nan(&local)[12..], [SETTLED_NAN, SETTLED_NAN, SETTLED_NAN, NAN]);
}
