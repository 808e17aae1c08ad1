//! The plot design: level table, plots, plot columns, family; first place, second place and size.

use super::Entry;
use crate::call::{Call, Outcome};
use crate::memory::{inner, lent_bytes};
use crate::random::Random;
use crate::{shrink, trial};
use reference::{Entries, FAMILY};

pub static ENTRY: Entry = Entry {
    title: "plot_design",
    refusals: &[6, 7, 8, 9, 10],
    told: None,
    make,
    run,
    plots: |call| call.plots,
    steps: shrink::LEVELS_OF_PLOTS,
    calls: 4000,
};

fn make(random: &mut Random) -> Call {
    let (trial, levels, _) = trial::designed(random);
    Call {
        plots: random.count(trial.plots),
        columns: [random.count(trial.counts()[0]), 0],
        lent: [random.length(FAMILY), 0],
        levels,
        ..Call::new(&ENTRY)
    }
}

fn run(call: &Call, entries: &Entries) -> Outcome {
    let mut family = lent_bytes(call.lent[0]);
    let found = (entries.plot_design)(&call.levels, call.plots, call.columns[0], inner(&mut family));
    Outcome::of(found, vec![family])
}

#[cfg(feature = "library")]
pub mod library {
    use crate::entries::{cut, Fault, LIBRARY, STALE};
    use reference::{Entries, Level};

    extern "C" {
        fn rachdoum_plot_design(
            levels: *const Level, levels_len: usize, plots: usize, columns: usize, family: *mut u8, family_len: usize, answer: *mut u64,
        ) -> u32;
    }

    pub fn plot_design(levels: &[Level], plots: usize, columns: usize, family: &mut [u8]) -> (u32, [u64; 3]) {
        let mut answer = [STALE; 3];
        let (lent, lent_len) = (family.as_mut_ptr(), family.len());
        // Each pointer has its own length, and the answer has the header's.
        let number = unsafe {
            rachdoum_plot_design(levels.as_ptr(), levels.len(), plots, columns, lent, lent_len, answer.as_mut_ptr())
        };
        (number, answer)
    }

    pub const FAULTS: &[Fault] = &[
        Fault { title: "size off by one on 24 plots", entries: Entries { plot_design: off_by_one, ..LIBRARY } },
        Fault { title: "labels cut to 16 bits", entries: Entries { plot_design: cut_labels, ..LIBRARY } },
    ];

    fn off_by_one(levels: &[Level], plots: usize, columns: usize, family: &mut [u8]) -> (u32, [u64; 3]) {
        let (number, mut answer) = (LIBRARY.plot_design)(levels, plots, columns, family);
        if plots == 24 && answer[2] > 0 {
            answer[2] += 1;
        }
        (number, answer)
    }

    fn cut_labels(levels: &[Level], plots: usize, columns: usize, family: &mut [u8]) -> (u32, [u64; 3]) {
        (LIBRARY.plot_design)(&cut(levels), plots, columns, family)
    }
}
