//! Stand-in: nothing of the module `light` is needed.
