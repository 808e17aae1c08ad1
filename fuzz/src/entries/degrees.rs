//! Degrees of freedom of the plot family that the design left.

use super::{families, Run};

pub fn call(run: &mut Run) {
    let [family, _] = families(run.lent, run.exchanged);
    let (number, answer) = (run.entries.degrees)(family, run.plots, run.asked[0]);
    run.say("degrees", number, answer);
}
