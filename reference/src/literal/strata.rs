//! Strata of treatment members and residuals: questions 6, 15 and 16.

use super::degrees::degrees_of_family;
use super::factor::Factor;
use super::family::{read, within_limits};
use crate::MEMBERS;

/// "The stratum of a treatment member is the plot member that is finer than or equivalent to it and to which every other
/// such plot member is finer; where there is no such member it has no stratum."
fn stratum(plot_members: &[Factor], treatment: &Factor) -> Option<usize> {
    let such = |i: &usize| plot_members[*i].is_finer_or_equivalent(treatment);
    let all: Vec<usize> = (0..plot_members.len()).filter(such).collect();
    let coarsest = |i: &usize| {
        all.iter().all(|other| other == i || plot_members[*other].is_strictly_finer(&plot_members[*i]))
    };
    all.iter().copied().find(coarsest)
}

/// "A stratum's residual is its degrees of freedom less those of its treatment members."
fn residuals(plot_members: &[Factor], treatment_members: &[Factor], strata: &[usize]) -> Vec<i64> {
    let mut residual = degrees_of_family(plot_members);
    for (degrees, &stratum) in degrees_of_family(treatment_members).iter().zip(strata) {
        residual[stratum] -= degrees;
    }
    residual
}

/// "Has every treatment member a stratum?" (question 16) Places of strata by treatment member, residuals by plot member.
pub fn strata(
    plot_buffer: &[u8],
    plot_size: usize,
    treatment_buffer: &[u8],
    treatment_size: usize,
    plots: usize,
) -> (u32, [i64; 64]) {
    let mut answer = [0; 2 * MEMBERS];
    if !within_limits(plots, plot_buffer) || !within_limits(plots, treatment_buffer) {
        return (6, answer);
    }
    let families = (read(plot_buffer, plots, plot_size), read(treatment_buffer, plots, treatment_size));
    let (Some(plot_members), Some(treatment_members)) = families else {
        return (15, answer);
    };
    let found: Option<Vec<usize>> = treatment_members.iter().map(|g| stratum(&plot_members, g)).collect();
    let Some(strata) = found else {
        return (16, answer);
    };
    for (j, &stratum) in strata.iter().enumerate() {
        answer[j] = stratum as i64 + 1;
    }
    for (i, &residual) in residuals(&plot_members, &treatment_members, &strata).iter().enumerate() {
        answer[MEMBERS + i] = residual;
    }
    (0, answer)
}
