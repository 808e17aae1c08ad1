//! Reading: the counts, and the level table that later entries take.

use super::{disturb_counts, Run};
use reference::INTERACTIONS;

pub fn call(run: &mut Run) {
    let (number, counts) = (run.entries.read_sheet)(run.lent.text.bytes(), run.lent.levels.levels());
    run.say("read_sheet", number, counts.map(|count| count as i64));
    let [plots, p, t] = counts.map(|count| count as usize);
    (run.plots, run.columns, run.k) = (plots, [p, t], 1 + run.chosen % INTERACTIONS);
    disturb_counts(run);
}
