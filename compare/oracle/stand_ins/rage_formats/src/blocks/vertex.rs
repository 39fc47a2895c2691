//! Stand-in: nothing of the module `vertex` is needed.
