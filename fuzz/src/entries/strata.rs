//! Strata of the families that the design left.

use super::{families, Run};

pub fn call(run: &mut Run) {
    let [first, second] = families(run.lent, run.exchanged);
    let (number, answer) = (run.entries.strata)(first, run.asked[0], second, run.asked[1], run.plots);
    run.say("strata", number, answer);
}
