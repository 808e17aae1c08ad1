//! The printed table, in a buffer that is long enough and sometimes in one that is too short.

use super::{Run, MOST};
use crate::memory::Guarded;
use crate::oracle;
use compare::LIBRARY;
use reference::TABLE;

pub fn call(run: &mut Run) {
    let chosen = run.chosen;
    print(run, TABLE + if chosen.is_multiple_of(4) { chosen / 4 % 100 } else { 0 });
    if chosen % 8 == 1 {
        print(run, TABLE - 1 - chosen / 8 % if chosen % 16 == 1 { TABLE } else { 2 });
    }
}

/// The table in a buffer of this length.
fn print(run: &mut Run, length: usize) {
    let out = run.lent.own.entry("skeleton").or_insert_with(|| Guarded::new(MOST)).lend(length);
    out.fill(run.chosen as u8);
    let (number, written) = (run.entries.skeleton)(run.lent.text.bytes(), out);
    if run.entries.title == LIBRARY.title {
        oracle::plant(out, written as usize);
    }
    run.left.push(out.to_vec());
    run.say("skeleton", number, [written as i64]);
}
