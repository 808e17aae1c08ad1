//! The plot design of what was read, in one of four runs.

use super::Run;

pub fn call(run: &mut Run) {
    if run.chosen % 4 != 2 {
        return;
    }
    let family = run.lent.families[0].bytes();
    let (number, answer) = (run.entries.plot_design)(run.lent.levels.levels(), run.plots, run.columns[0], family);
    run.left.push(family.to_vec());
    run.say("plot_design", number, answer.map(|number| number as i64));
}
