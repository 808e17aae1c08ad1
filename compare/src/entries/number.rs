//! Numbering alone: a column, how many of its plots to number, 240 numbers; the number of classes. The library's header does not have
//! it: its function is in the archive of the crate `numbering`.

use super::Entry;
use crate::buckets::{sharing, sharing_near};
use crate::call::{Call, Outcome};
use crate::levels::different;
use crate::memory::{inner, lent_bytes};
use crate::random::Random;
use crate::shrink;
use crate::trial::trial_with_columns;
use reference::{Entries, Level, PLOTS};

pub static ENTRY: Entry = Entry {
    title: "number",
    refusals: &[],
    told: None,
    make,
    run,
    plots: |_| 0,
    steps: shrink::COLUMN,
    calls: 8000,
};

fn make(random: &mut Random) -> Call {
    let mut levels = column(random);
    if random.once_in(4) {
        put_ends(random, &mut levels);
    }
    Call { plots: stop(random, levels.len()), levels, ..Call::new(&ENTRY) }
}

/// A column of a trial, or up to 300 labels: some or all of those chosen, over and over, or some at random.
fn column(random: &mut Random) -> Vec<Level> {
    if random.once_in(5) {
        let columns = trial_with_columns(random).columns.concat();
        return random.pick(&columns);
    }
    let labels = labels(random);
    let length = if random.once_in(3) { random.pick(&[0, 1, 2, 239, 240, 241, 242]) } else { random.below(301) };
    let classes = 1 + random.below(labels.len());
    match random.below(3) {
        0 => labels[..classes].iter().copied().cycle().take(length).collect(),
        1 => labels.iter().copied().cycle().take(length).collect(),
        _ => (0..length).map(|_| random.pick(&labels[..classes])).collect(),
    }
}

/// So many labels are chosen at most.
const LABELS: usize = 300;

/// Labels in any order: near to each other, anywhere, over the range of levels, or in one bucket of the library.
fn labels(random: &mut Random) -> Vec<Level> {
    let any = random.word() as Level;
    let mut labels: Vec<Level> = match random.below(5) {
        0 => {
            let last = random.pick(&[1, 20, 240, 254, 255, 256, LABELS as Level - 1]);
            (0..=last).map(|further| any.min(Level::MAX - last) + further).collect()
        }
        1 => (0..LABELS).map(|_| random.word() as Level).collect(),
        2 => different(random, LABELS),
        3 => sharing_near(any).collect(),
        _ => sharing(any).take(LABELS).collect(),
    };
    random.shuffle(&mut labels);
    labels
}

/// The lowest and the highest label on some plots.
fn put_ends(random: &mut Random, levels: &mut [Level]) {
    for _ in 0..levels.len().min(1 + random.below(4)) {
        levels[random.below(levels.len())] = random.pick(&[0, Level::MAX]);
    }
}

/// A stop for a column of this length: before its first plot, within it, at its end, past it, beside the most plots, or huge.
fn stop(random: &mut Random, length: usize) -> usize {
    match random.below(8) {
        0 => 0,
        1..=3 => random.below(length),
        4 => length,
        5 => length + 1 + random.below(20),
        6 => 239 + random.below(4),
        _ => random.pick(&[255, 256, 65_536, 1 << 32, usize::MAX / 2 + 1, usize::MAX]),
    }
}

fn run(call: &Call, entries: &Entries) -> Outcome {
    let mut numbers = lent_bytes(PLOTS);
    let lent = inner(&mut numbers).first_chunk_mut().expect("a byte for each plot is lent");
    let found = (entries.number)(&call.levels, call.plots, lent);
    Outcome::of(found, vec![numbers])
}

#[cfg(feature = "library")]
pub mod library {
    use crate::entries::{cut, Fault, LIBRARY};
    use reference::{Entries, Level, PLOTS};

    extern "C" {
        fn number_levels(levels: *const Level, levels_len: usize, stop: usize, out: *mut u8) -> usize;
    }

    pub fn number(column: &[Level], stop: usize, numbers: &mut [u8; PLOTS]) -> (u32, [u64; 1]) {
        // The pointer has its own length, and as many numbers are lent as there may be plots.
        let classes = unsafe { number_levels(column.as_ptr(), column.len(), stop, numbers.as_mut_ptr()) };
        (0, [classes as u64])
    }

    pub const FAULTS: &[Fault] = &[
        Fault { title: "the plot after the stop numbered too", entries: Entries { number: one_more, ..LIBRARY } },
        Fault { title: "a class that the last plot begins not counted", entries: Entries { number: last_class, ..LIBRARY } },
        Fault { title: "labels cut to 16 bits", entries: Entries { number: cut_labels, ..LIBRARY } },
    ];

    /// Stops one plot too late, and counts the classes up to the right one.
    fn one_more(column: &[Level], stop: usize, numbers: &mut [u8; PLOTS]) -> (u32, [u64; 1]) {
        let found = (LIBRARY.number)(column, stop, numbers);
        (LIBRARY.number)(column, stop.saturating_add(1), numbers);
        found
    }

    fn last_class(column: &[Level], stop: usize, numbers: &mut [u8; PLOTS]) -> (u32, [u64; 1]) {
        let (number, [classes]) = (LIBRARY.number)(column, stop, numbers);
        let walked = &column[..stop.min(column.len()).min(PLOTS)];
        let begun = walked.split_last().is_some_and(|(last, before)| !before.contains(last));
        (number, [classes.saturating_sub(u64::from(begun))])
    }

    fn cut_labels(column: &[Level], stop: usize, numbers: &mut [u8; PLOTS]) -> (u32, [u64; 1]) {
        (LIBRARY.number)(&cut(column), stop, numbers)
    }
}
