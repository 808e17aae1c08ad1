//! Numbering alone: one column, walked from plot 1 up to a stop. No question is asked.

use super::factor::Factor;
use crate::{Level, PLOTS};

/// "This walk, stopped after any number of plots, holds exactly the numbers of those plots and their class count": those of the factor
/// that the plots before the stop make. A column has no plots past its end and none past the 240th.
pub fn number(column: &[Level], stop: usize, numbers: &mut [u8; PLOTS]) -> (u32, [u64; 1]) {
    let plots = stop.min(column.len()).min(PLOTS);
    let factor = Factor::of_labels(&column[..plots]);
    numbers[..plots].copy_from_slice(&factor.numbers());
    (0, [factor.number_of_classes() as u64])
}
