//! What the designs and naming take from the level table, and what a refusal carries.

use super::factor::Factor;
use crate::{Level, COLUMNS, PLOTS};

/// A refusal with its two places.
pub type Refusal = (u32, u64, u64);

/// No refusal.
pub const NONE: Refusal = (0, 0, 0);

/// "Column c, plot u (both from 0) is number 240 × c + u; plot columns take c = 0 to 5 and treatment columns c = 6 to 11".
fn cells(levels: &[Level], first_column: usize, columns: usize, plots: usize) -> Vec<&[Level]> {
    (first_column..first_column + columns).map(|c| &levels[PLOTS * c..PLOTS * c + plots]).collect()
}

/// The used cells of the plot columns.
pub fn plot_cells(levels: &[Level], columns: usize, plots: usize) -> Vec<&[Level]> {
    cells(levels, 0, columns, plots)
}

/// The used cells of the treatment columns.
pub fn treatment_cells(levels: &[Level], columns: usize, plots: usize) -> Vec<&[Level]> {
    cells(levels, COLUMNS, columns, plots)
}

/// "Is every used level nonzero?" (question 7)
pub fn no_level_missing(columns: &[&[Level]]) -> bool {
    columns.iter().all(|column| column.iter().all(|&level| level != 0))
}

/// "A column makes one": a factor for each column.
pub fn factors(columns: &[&[Level]]) -> Vec<Factor> {
    columns.iter().map(|column| Factor::of_labels(column)).collect()
}

/// "the first failing pair, in the order of the places, smaller first place, then smaller second", of one family.
pub fn first_failing_pair(members: &[Factor]) -> Option<(u64, u64)> {
    for i in 0..members.len() {
        for j in i + 1..members.len() {
            if !members[i].is_orthogonal(&members[j]) {
                return Some((i as u64 + 1, j as u64 + 1));
            }
        }
    }
    None
}
