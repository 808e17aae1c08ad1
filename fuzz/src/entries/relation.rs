//! The relation of the treatment family that the design left.

use super::{families, Run};

pub fn call(run: &mut Run) {
    let [_, family] = families(run.lent, run.exchanged);
    let (number, answer) = (run.entries.relation)(family, run.plots, run.asked[1]);
    run.say("relation", number, answer.map(i64::from));
}
