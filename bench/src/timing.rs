//! The time of one entry by two implementations on one sheet, turn by turn in one process.

use crate::entries::{Call, Entry, Trial};
use reference::Entries;
use std::hint::black_box;
use std::time::{Duration, Instant};

/// A turn has so many calls that it takes about this long: much longer than reading the clock, much shorter than a time slice.
const TURN: Duration = Duration::from_micros(100);

/// Microseconds of one call: the least and the median over the turns.
#[derive(Clone, Copy)]
pub struct Spent {
    pub least: f64,
    pub median: f64,
}

/// Makes a call so many times.
pub fn repeat(entries: &Entries, call: &mut Call, calls: u32) {
    for _ in 0..calls {
        call(entries, &mut |answer| {
            black_box(answer);
        });
    }
}

/// Microseconds of one call, over one turn.
fn turn(entries: &Entries, call: &mut Call, calls: u32) -> f64 {
    let start = Instant::now();
    repeat(entries, call, calls);
    start.elapsed().as_nanos() as f64 / 1000.0 / f64::from(calls)
}

fn spent(mut turns: Vec<f64>) -> Spent {
    turns.sort_by(f64::total_cmp);
    Spent { least: turns[0], median: turns[turns.len() / 2] }
}

/// Calls that a turn has, from the slower of the two.
fn calls(pair: [&Entries; 2], call: &mut Call) -> u32 {
    let once = pair.map(|entries| (0..3).map(|_| turn(entries, call, 1)).fold(f64::INFINITY, f64::min));
    let slower = once[0].max(once[1]).max(0.01);
    (TURN.as_micros() as f64 / slower).clamp(1.0, 10_000.0) as u32
}

/// Both implementations, in turn, for so long; who begins changes from turn to turn.
pub fn alternate(pair: [&Entries; 2], entry: &Entry, trial: &Trial, limit: Duration) -> [Spent; 2] {
    let mut call = [(entry.call)(trial), (entry.call)(trial)];
    let calls = calls(pair, &mut call[0]);
    let mut turns = [Vec::new(), Vec::new()];
    let start = Instant::now();
    while start.elapsed() < limit || turns[0].len() < 6 {
        let first = turns[0].len() % 2;
        for who in [first, 1 - first] {
            turns[who].push(turn(pair[who], &mut call[who], calls));
        }
    }
    turns.map(spent)
}

/// Whether both answer the same and leave the same memory.
pub fn same(pair: [&Entries; 2], entry: &Entry, trial: &Trial) -> bool {
    let [first, second] = pair.map(|entries| {
        let mut said = String::new();
        (entry.call)(trial)(entries, &mut |answer| said = format!("{answer:?}"));
        said
    });
    first == second
}
