//! Stand-in: nothing of the module `bvh` is needed.
