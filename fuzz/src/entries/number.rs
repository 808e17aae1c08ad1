//! Numbering of one column of the level table, up to any stop: the column alone, or with all that follows it in the table.

use super::{column, Lent, Run};
use crate::memory::Guarded;
use reference::PLOTS;

pub fn call(run: &mut Run) {
    let (at, plots) = (run.chosen >> 20, run.plots);
    let Lent { levels, own, .. } = &mut *run.lent;
    let cells = &levels.levels()[PLOTS * column(run.columns, run.chosen >> 32)..];
    let cells = if at % 3 == 0 { cells } else { &cells[..plots.min(PLOTS)] };
    let stop = match at / 3 % 8 {
        0 => 0,
        1 => plots + 1,
        2 => PLOTS - 1 + at / 24 % 4,
        3 => usize::MAX - at / 24 % 2,
        4 | 5 => plots,
        _ => at / 24 % (plots + 1),
    };
    let numbers = own.entry("number").or_insert_with(|| Guarded::new(PLOTS)).lend(PLOTS);
    numbers.fill(run.chosen as u8);
    let lent = numbers.first_chunk_mut().expect("a byte for each plot is lent");
    let (number, answer) = (run.entries.number)(cells, stop, lent);
    run.left.push(numbers.to_vec());
    run.say("number", number, answer.map(|number| number as i64));
}
