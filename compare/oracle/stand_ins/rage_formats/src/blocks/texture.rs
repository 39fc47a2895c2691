//! Stand-in: nothing of the module `texture` is needed.
