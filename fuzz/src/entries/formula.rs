//! The sheet of a formula, where the text is one. The entries after it take that sheet in one of two runs, else the text as it is.

use super::{write_sheet, Run};

pub fn call(run: &mut Run) {
    write_sheet(run, "formula", run.entries.formula, run.chosen >> 12);
}
