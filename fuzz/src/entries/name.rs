//! Names of members of each family that the design left: one of each, in some runs all. In some runs a family is taken for one of the other
//! kind, the buffer is too short or longer, or a level is missing.

use super::{column, Lent, Run};
use crate::memory::Guarded;
use reference::{NAME, PLOTS};

/// Most bytes that are lent for a name.
const MOST: usize = NAME + 64;

pub fn call(run: &mut Run) {
    let chosen = run.chosen >> 24;
    let place = run.chosen / 7;
    // The design has passed 7, so a level is taken away here.
    let cell = PLOTS * column(run.columns, place) + place / 13 % run.plots.clamp(1, PLOTS);
    let level = run.lent.levels.levels()[cell];
    if chosen % 8 == 1 {
        run.lent.levels.levels()[cell] = 0;
    }
    for family in [0, 1] {
        let most = run.sizes[family].max(1);
        let places = if chosen % 8 == 2 { 1..=most } else { 1 + place % most..=1 + place % most };
        places.for_each(|place| name(run, family, place));
    }
    run.lent.levels.levels()[cell] = level;
}

/// The name of one member.
fn name(run: &mut Run, which: usize, place: usize) {
    let chosen = run.chosen >> 27;
    let kind = if chosen % 4 == 1 { 1 - which } else { which };
    let length = match chosen / 4 % 16 {
        0 => NAME - 1,
        1 => NAME + 1 + chosen / 64 % (MOST - NAME),
        2 => chosen / 64 % NAME,
        _ => NAME,
    };
    let Lent { text, levels, families, own } = &mut *run.lent;
    let name = own.entry("name").or_insert_with(|| Guarded::new(MOST)).lend(length);
    name.fill(run.chosen as u8);
    let (family, size) = (families[which].bytes(), run.sizes[which]);
    let (number, answer) = (run.entries.name)(text.bytes(), levels.levels(), family, run.plots, size, kind as u32, place, name);
    run.left.push(name.to_vec());
    run.say("name", number, answer.map(|number| number as i64));
}
