//! The library of the proved planner as seen from Rust, in the shape of the second implementation's entries, and what is needed to
//! compare the two call by call. Without the feature `library` no archive is linked: there are only the calls and how they are run.

pub mod buckets;
pub mod call;
pub mod case;
pub mod cells;
pub mod check;
pub mod entries;
pub mod family;
pub mod faults;
pub mod formula;
pub mod levels;
pub mod memory;
pub mod names;
pub mod old_sheet;
pub mod pairs;
pub mod random;
pub mod sheet;
pub mod shrink;
pub mod standing;
pub mod trial;

#[cfg(feature = "library")]
pub use entries::LIBRARY;
