//! How two factors stand: questions 6 and 15.

use super::factor::Factor;
use super::family::{read, within_limits};
use crate::Comparison;

/// "Comparing two factors now says equivalent, finer, coarser, orthogonal without either being finer, or not orthogonal, the first
/// that fits, each said of the first factor."
fn comparison(first: &Factor, second: &Factor) -> Comparison {
    if first.is_equivalent(second) {
        Comparison::Equivalent
    } else if first.is_strictly_finer(second) {
        Comparison::Finer
    } else if second.is_strictly_finer(first) {
        Comparison::Coarser
    } else if first.is_orthogonal(second) {
        Comparison::Orthogonal
    } else {
        Comparison::NotOrthogonal
    }
}

/// "is a place asked about from 1 to its family's size" (question 6, of one place). "A family's size itself is judged by 15."
fn is_place(place: usize, size: usize) -> bool {
    (1..=size).contains(&place)
}

/// "Users may ask it too, of two lent families and a place in each, with questions 6 and 15." All members of both families are judged
/// by 15, whichever are asked about.
pub fn compare(
    first_buffer: &[u8],
    first_size: usize,
    first_place: usize,
    second_buffer: &[u8],
    second_size: usize,
    second_place: usize,
    plots: usize,
) -> (u32, [u64; 1]) {
    let lent = within_limits(plots, first_buffer) && within_limits(plots, second_buffer);
    if !lent || !is_place(first_place, first_size) || !is_place(second_place, second_size) {
        return (6, [0]);
    }
    let families = (read(first_buffer, plots, first_size), read(second_buffer, plots, second_size));
    let (Some(first), Some(second)) = families else {
        return (15, [0]);
    };
    (0, [comparison(&first[first_place - 1], &second[second_place - 1]) as u64])
}
