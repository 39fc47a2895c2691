//! The exports of librig.a, as `bindings/exports` declares them for all Rust of the repository, and their wrappers, by group.
//!
//! Each call lends the callee exactly the items of live slices, those that it may change lent by `&mut` and so
//! apart from all others, which is the exports' whole condition.

#[path = "../../../bindings/rust/src/ffi/exports.rs"]
mod declared;

#[cfg(rig_checks)]
mod checks;
#[cfg(rig_cursor)]
mod cursor;
#[cfg(rig_derive)]
mod derive;
#[cfg(rig_fields)]
mod fields;
#[cfg(rig_hash)]
mod hash;
#[cfg(rig_joints)]
mod joints;
#[cfg(rig_setters)]
mod setters;
#[cfg(rig_skeletons)]
mod skeletons;

pub struct Rig;

/// A returned bool is one byte, 0 or 1.
#[cfg(any(rig_cursor, rig_fields))]
fn truth(byte: u8) -> bool {
    assert!(byte <= 1, "a bool came back as {byte}");
    byte == 1
}
