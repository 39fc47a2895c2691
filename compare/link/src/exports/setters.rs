//! The setters of a matrix. An export takes the address of a struct of floats, which lie as their words do.

use super::{declared::*, Rig};
use crate::Setters;
use std::ptr::{from_mut, from_ref};

fn floats<const N: usize>(words: &[u32; N]) -> *const [f32; N] {
    from_ref(words).cast()
}

fn floats_mut<const N: usize>(words: &mut [u32; N]) -> *mut [f32; N] {
    from_mut(words).cast()
}

impl Setters for Rig {
    fn set_scale_vector(&self, m: &mut [u32; 16], s: &[u32; 3]) {
        unsafe { rig_set_scale_vector(floats_mut(m), floats(s)) }
    }

    fn set_column4(&self, m: &mut [u32; 16], v: &[u32; 4]) {
        unsafe { rig_set_column4(floats_mut(m), floats(v)) }
    }
}
