//! Degrees of freedom.

use super::order::{within, Family};
use crate::MEMBERS;

/// Degrees of freedom of all members.
pub fn degrees(family: &[u8], plots: usize, size: usize) -> (u32, [i64; 32]) {
    if !within(plots, family) {
        return (6, [0; MEMBERS]);
    }
    match Family::read(family, plots, size) {
        Some(family) => (0, family.degrees(&family.coarser())),
        None => (15, [0; MEMBERS]),
    }
}
