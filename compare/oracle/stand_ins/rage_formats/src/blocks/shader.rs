//! Stand-in: nothing of the module `shader` is needed.
