//! Stand-in: nothing of the module `bounds` is needed.
