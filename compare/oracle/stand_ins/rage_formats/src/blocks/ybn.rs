//! Stand-in: nothing of the module `ybn` is needed.
