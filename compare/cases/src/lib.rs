//! Cases for the comparison: rigs, sections laid by hand, named changes. All of it is deterministic
//! from a seed.

pub mod damage;
pub mod hand;
pub mod hostile;
pub mod joints;
pub mod limits;
pub mod names;
pub mod places;
pub mod random;
pub mod records;
pub mod rigs;
pub mod rng;
pub mod rows;
pub mod rows_changed;
pub mod scattered;
pub mod search;
pub mod section;
pub mod tables;
pub mod trial;
pub mod units;
pub mod words;

pub use hand::Hand;
pub use random::{damage, damaged, good, good_of, Case};
pub use rng::Rng;
pub use section::Section;
