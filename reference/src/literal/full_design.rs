//! The full design: questions 6 to 14 (Großmann, Algorithm 1).

use super::design::{factors, first_failing_pair, no_level_missing, plot_cells, treatment_cells, Refusal, NONE};
use super::factor::Factor;
use super::family::{final_treatment_family, first_treatment_family, write};
use super::plot_design::close_and_judge_plots;
use crate::{Level, COLUMNS, FAMILY, INTERACTIONS, LEVELS, PLOTS};

/// "Is every plot member orthogonal to every one of them?" (13: "the first is a plot member")
fn first_failing_mixed_pair(plot_members: &[Factor], first_members: &[Factor]) -> Option<(u64, u64)> {
    for (i, f) in plot_members.iter().enumerate() {
        for (j, g) in first_members.iter().enumerate() {
            if !f.is_orthogonal(g) {
                return Some((i as u64 + 1, j as u64 + 1));
            }
        }
    }
    None
}

/// "Are every two of its members orthogonal?" (12), then 13.
fn judge_treatment_family(plot_members: &[Factor], first_members: &[Factor]) -> Option<Refusal> {
    if let Some((i, j)) = first_failing_pair(first_members) {
        return Some((12, i, j));
    }
    first_failing_mixed_pair(plot_members, first_members).map(|(i, j)| (13, i, j))
}

/// "the full design 6 to 14". Answers the refusal, its places and the sizes of the families written, "0 for one not
/// written".
pub fn full_design(
    levels: &[Level],
    plots: usize,
    plot_columns: usize,
    treatment_columns: usize,
    k: usize,
    plot_buffer: &mut [u8],
    treatment_buffer: &mut [u8],
) -> (u32, [u64; 4]) {
    let within = (1..=PLOTS).contains(&plots) && plot_columns <= COLUMNS && treatment_columns <= COLUMNS;
    let long_enough = levels.len() >= LEVELS && plot_buffer.len() >= FAMILY && treatment_buffer.len() >= FAMILY;
    if !within || !(1..=INTERACTIONS).contains(&k) || !long_enough {
        return (6, [0; 4]);
    }
    let plot_used = plot_cells(levels, plot_columns, plots);
    let treatment_used = treatment_cells(levels, treatment_columns, plots);
    if !no_level_missing(&plot_used) || !no_level_missing(&treatment_used) {
        return (7, [0; 4]);
    }
    let (refusal, plot_members) = close_and_judge_plots(&factors(&plot_used), plots, plot_buffer);
    let plot_size = plot_members.len() as u64;
    if refusal != NONE {
        return (refusal.0, [refusal.1, refusal.2, plot_size, 0]);
    }
    let first_members = first_treatment_family(&factors(&treatment_used), plots, k);
    let ((number, first, second), size) = judge_treatments(&plot_members, first_members, treatment_buffer);
    (number, [first, second, plot_size, size])
}

/// Questions 11 to 14: "after 12 to 14 the first treatment family is [written] too". The refusal, and the size of the
/// treatment family written.
fn judge_treatments(plot_members: &[Factor], first: Option<Vec<Factor>>, buffer: &mut [u8]) -> (Refusal, u64) {
    let Some(first_members) = first else {
        return ((11, 0, 0), 0);
    };
    write(&first_members, buffer);
    if let Some(refusal) = judge_treatment_family(plot_members, &first_members) {
        return (refusal, first_members.len() as u64);
    }
    let Some(members) = final_treatment_family(plot_members, &first_members) else {
        return ((14, 0, 0), first_members.len() as u64);
    };
    write(&members, buffer);
    (NONE, members.len() as u64)
}
