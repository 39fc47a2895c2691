//! What the published code does for a check, so that it can be timed.

use rage_formats::blocks::skeleton::{self, Bone};
use rage_formats::blocks::{ydr, Graph};
use rage_formats::math::Mat4;

/// What is derived from the bones in a graph; the chains are in the graph.
pub struct Derived {
    pub graph: Graph,
    pub indices: (Vec<i16>, Vec<i16>),
    pub matrices: (Vec<Mat4>, Vec<Mat4>),
}

/// The three derivations from the bones that were read into a graph.
pub fn derive_read(mut graph: Graph) -> Derived {
    let bones: Vec<Bone> = ydr::ids_of::<Bone>(&graph).into_iter().map(|id| graph.get::<Bone>(id).clone()).collect();
    skeleton::build_bone_tags(&mut graph, &bones);
    Derived { indices: skeleton::build_indices(&bones), matrices: skeleton::build_transformations(&bones), graph }
}
