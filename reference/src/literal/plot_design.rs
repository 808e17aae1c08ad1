//! The plot design: questions 6 to 10.

use super::design::{factors, first_failing_pair, no_level_missing, plot_cells, Refusal, NONE};
use super::factor::Factor;
use super::family::{plot_family, write};
use crate::{Level, COLUMNS, FAMILY, LEVELS, PLOTS};

/// "Has every plot member classes of one size?" (9: "the first member that fails and 0"), then "Are every two plot members
/// orthogonal?" (10).
fn judge_plot_family(members: &[Factor]) -> Option<Refusal> {
    if let Some(i) = members.iter().position(|member| !member.has_classes_of_one_size()) {
        return Some((9, i as u64 + 1, 0));
    }
    first_failing_pair(members).map(|(i, j)| (10, i, j))
}

/// "The plot design asks 6 to 10". Answers the refusal, its places and the size of the family written.
pub fn plot_design(levels: &[Level], plots: usize, columns: usize, family: &mut [u8]) -> (u32, [u64; 3]) {
    let within = (1..=PLOTS).contains(&plots) && columns <= COLUMNS;
    if !within || levels.len() < LEVELS || family.len() < FAMILY {
        return (6, [0; 3]);
    }
    let used = plot_cells(levels, columns, plots);
    if !no_level_missing(&used) {
        return (7, [0; 3]);
    }
    let ((number, first, second), members) = close_and_judge_plots(&factors(&used), plots, family);
    (number, [first, second, members.len() as u64])
}

/// Questions 8 to 10: "After 9 to 14 the plot family is written". The refusal, and the members written.
pub fn close_and_judge_plots(columns: &[Factor], plots: usize, buffer: &mut [u8]) -> (Refusal, Vec<Factor>) {
    let Some(members) = plot_family(columns, plots) else {
        return ((8, 0, 0), Vec::new());
    };
    write(&members, buffer);
    (judge_plot_family(&members).unwrap_or(NONE), members)
}
