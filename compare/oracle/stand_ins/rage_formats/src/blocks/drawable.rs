//! Stand-in: nothing of the module `drawable` is needed.
