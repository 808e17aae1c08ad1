//! Conversion of a sheet numbered within parents. The entries after it take the converted sheet in one of two runs, else the text as it is.

use super::{write_sheet, Run};

pub fn call(run: &mut Run) {
    write_sheet(run, "convert", run.entries.convert, run.chosen >> 8);
}
