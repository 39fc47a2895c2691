//! Joints, and one limit at a time: reading and writing of our library against the published Rust, every lent word and byte
//! compared.

pub mod limit;
mod limits;
pub mod read;
mod runs;
pub mod write;

pub use runs::run;
