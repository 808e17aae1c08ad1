//! Numbering alone: one column up to a stop.

use super::column::{self, Column};
use crate::{Level, PLOTS};

/// Numbers the plots of a column before the stop; answers how many classes they have.
pub fn number(column: &[Level], stop: usize, numbers: &mut Column) -> (u32, [u64; 1]) {
    let plots = stop.min(column.len()).min(PLOTS);
    (0, [u64::from(column::number(&column[..plots], numbers))])
}
