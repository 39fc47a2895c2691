//! The tests of the crate over the library that is linked.

#![forbid(unsafe_code)]

mod before_upload;
mod growth;
mod horse;
mod hostile;
mod joints;
mod load;
mod refusals;
mod rigs;
mod rng;
mod round_trip;
mod sections;
