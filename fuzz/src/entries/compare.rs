//! How members of the families that the design left stand to each other: a member of each, and two of the plot family; in some runs each
//! member of one with each of the other. In some runs a place is one that the family does not have.

use super::{families, Run};

pub fn call(run: &mut Run) {
    let chosen = run.chosen / 11;
    let [a, b] = run.asked;
    compare(run, [0, 1], [place(chosen, a), place(chosen >> 10, b)]);
    compare(run, [0, 0], [place(chosen >> 20, a), place(chosen >> 5, a)]);
    if (run.chosen >> 25).is_multiple_of(16) {
        (0..a * b).for_each(|pair| compare(run, [0, 1], [1 + pair / b, 1 + pair % b]));
    }
}

/// A place in a family of this size: any, the last, none, the one behind the last, the largest number, or a good one in 32 bits.
fn place(chosen: usize, size: usize) -> usize {
    let good = 1 + chosen / 32 % size.max(1);
    match chosen % 32 {
        0 => 0,
        1 => size + 1,
        2 | 3 => size,
        4 => usize::MAX,
        5 => (1 << 32) + good,
        _ => good,
    }
}

/// A member of one family beside one of another, or of the same.
fn compare(run: &mut Run, which: [usize; 2], [i, j]: [usize; 2]) {
    let lent = families(run.lent, run.exchanged);
    let ([first, second], [a, b]) = (which.map(|one| &*lent[one]), which.map(|one| run.asked[one]));
    let (number, answer) = (run.entries.compare)(first, a, i, second, b, j, run.plots);
    run.say("compare", number, answer.map(|number| number as i64));
}
