//! The full design of what was read, with any k: the families that later entries take.

use super::{disturb_families, Run};

pub fn call(run: &mut Run) {
    let ([p, t], [first, second]) = (run.columns, &mut run.lent.families);
    let levels = run.lent.levels.levels();
    let (number, answer) = (run.entries.full_design)(levels, run.plots, p, t, run.k, first.bytes(), second.bytes());
    run.say("full_design", number, answer.map(|number| number as i64));
    run.sizes = [answer[2] as usize, answer[3] as usize];
    disturb_families(run);
}
