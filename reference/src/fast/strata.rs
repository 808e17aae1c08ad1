//! Strata of treatment members.

use super::column::{is_finer, leaders};
use super::order::{within, Family};
use crate::MEMBERS;

/// The order of the plot family and the strata of all treatment members, places from 0; None when one has none. The coarsest
/// candidate stands first, and those finer than it are candidates too, so only the others need a look.
pub fn places(plots: &Family, treatments: &Family) -> Option<([u32; MEMBERS], [u8; MEMBERS])> {
    const NONE: u8 = u8::MAX;
    let mut words = [0; MEMBERS];
    let mut places = [NONE; MEMBERS];
    for i in 0..plots.size {
        let leaders = leaders(plots.column(i));
        words[i] = plots.coarser_word(i, &leaders, &words);
        for (j, place) in places[..treatments.size].iter_mut().enumerate() {
            let known = *place != NONE && words[i] >> *place & 1 == 1;
            if known || plots.classes[i] < treatments.classes[j] || !is_finer(&leaders, treatments.column(j)) {
                continue;
            }
            if *place != NONE {
                return None;
            }
            *place = i as u8;
        }
    }
    let found = !places[..treatments.size].contains(&NONE);
    found.then_some((words, places))
}

/// Strata by treatment member and residuals by plot member.
pub fn strata(
    plot_buffer: &[u8],
    plot_size: usize,
    treatment_buffer: &[u8],
    treatment_size: usize,
    plots: usize,
) -> (u32, [i64; 64]) {
    let mut answer = [0; 2 * MEMBERS];
    if !within(plots, plot_buffer) || !within(plots, treatment_buffer) {
        return (6, answer);
    }
    let families = (Family::read(plot_buffer, plots, plot_size), Family::read(treatment_buffer, plots, treatment_size));
    let (Some(plot_family), Some(treatment_family)) = families else {
        return (15, answer);
    };
    let Some((coarser, places)) = places(&plot_family, &treatment_family) else {
        return (16, answer);
    };
    let treatment_degrees = treatment_family.degrees(&treatment_family.coarser());
    answer[MEMBERS..].copy_from_slice(&plot_family.degrees(&coarser));
    for j in 0..treatment_size {
        answer[j] = i64::from(places[j]) + 1;
        answer[MEMBERS + usize::from(places[j])] -= treatment_degrees[j];
    }
    (0, answer)
}
