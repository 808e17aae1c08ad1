//! How two factors stand.

use super::column::{refines, sizes, Walk};
use super::order::{within, Family};
use super::work::with_work;
use crate::{Comparison, PLOTS};

/// Every plot counts once.
const ONCE: [u8; PLOTS] = [1; PLOTS];

/// How one numbered column with so many classes stands to another. Equal columns are equivalent factors, and a finer one has more
/// classes, so at most one of the two can be the finer; only where neither is are the classes walked.
fn comparison(first: (&[u8], u8), second: (&[u8], u8), walk: &mut Walk) -> Comparison {
    let ((f, f_classes), (g, g_classes)) = (first, second);
    if f_classes == g_classes && f == g {
        return Comparison::Equivalent;
    }
    if f_classes > g_classes && refines(f, g) {
        return Comparison::Finer;
    }
    if f_classes < g_classes && refines(g, f) {
        return Comparison::Coarser;
    }
    walk.meet(f, f_classes, g, g_classes);
    walk.join(f_classes);
    let weights = &ONCE[..f.len()];
    if walk.orthogonal(weights, &sizes(f, weights), f_classes, &sizes(g, weights)) {
        Comparison::Orthogonal
    } else {
        Comparison::NotOrthogonal
    }
}

/// How a member of one family stands to a member of another.
pub fn compare(
    first_buffer: &[u8],
    first_size: usize,
    first_place: usize,
    second_buffer: &[u8],
    second_size: usize,
    second_place: usize,
    plots: usize,
) -> (u32, [u64; 1]) {
    let places = (1..=first_size).contains(&first_place) && (1..=second_size).contains(&second_place);
    if !places || !within(plots, first_buffer) || !within(plots, second_buffer) {
        return (6, [0]);
    }
    let families = (Family::read(first_buffer, plots, first_size), Family::read(second_buffer, plots, second_size));
    let (Some(first), Some(second)) = families else {
        return (15, [0]);
    };
    let [f, g] = [(first, first_place), (second, second_place)].map(|(family, place)| (family.column(place - 1), family.classes[place - 1]));
    (0, [with_work(|work| comparison(f, g, &mut work.walk)) as u64])
}
