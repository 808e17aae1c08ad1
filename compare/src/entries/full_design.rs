//! The full design: level table, plots, columns of both kinds, k, both families; both places and both sizes.

use super::Entry;
use crate::call::{Call, Outcome};
use crate::memory::{inner, lent_bytes};
use crate::random::Random;
use crate::{shrink, trial};
use reference::{Entries, FAMILY};

pub static ENTRY: Entry = Entry {
    title: "full_design",
    refusals: &[6, 7, 8, 9, 10, 11, 12, 13, 14],
    told: None,
    make,
    run,
    plots: |call| call.plots,
    steps: shrink::LEVELS_OF_PLOTS,
    calls: 3000,
};

fn make(random: &mut Random) -> Call {
    let (trial, levels, k) = trial::designed(random);
    Call {
        plots: random.count(trial.plots),
        columns: trial.counts().map(|columns| random.count(columns)),
        k: random.count(k),
        lent: [random.length(FAMILY), random.length(FAMILY)],
        levels,
        ..Call::new(&ENTRY)
    }
}

fn run(call: &Call, entries: &Entries) -> Outcome {
    let (mut plot, mut treatment) = (lent_bytes(call.lent[0]), lent_bytes(call.lent[1]));
    let (first, second, [p, t]) = (inner(&mut plot), inner(&mut treatment), call.columns);
    let found = (entries.full_design)(&call.levels, call.plots, p, t, call.k, first, second);
    Outcome::of(found, vec![plot, treatment])
}

#[cfg(feature = "library")]
pub mod library {
    use crate::entries::{cut, Fault, LIBRARY, STALE};
    use reference::{Entries, Level, PLOTS};

    extern "C" {
        fn rachdoum_full_design(
            levels: *const Level, levels_len: usize, plots: usize, plot_columns: usize, treatment_columns: usize, k: usize,
            plot_family: *mut u8, plot_family_len: usize, treatment_family: *mut u8, treatment_family_len: usize, answer: *mut u64,
        ) -> u32;
    }

    pub fn full_design(
        levels: &[Level], plots: usize, plot_columns: usize, treatment_columns: usize, k: usize, plot_family: &mut [u8],
        treatment_family: &mut [u8],
    ) -> (u32, [u64; 4]) {
        let mut answer = [STALE; 4];
        let (first, first_len) = (plot_family.as_mut_ptr(), plot_family.len());
        let (second, second_len) = (treatment_family.as_mut_ptr(), treatment_family.len());
        // Each pointer has its own length, and the answer has the header's.
        let number = unsafe {
            rachdoum_full_design(
                levels.as_ptr(), levels.len(), plots, plot_columns, treatment_columns, k, first, first_len, second, second_len,
                answer.as_mut_ptr(),
            )
        };
        (number, answer)
    }

    pub const FAULTS: &[Fault] = &[
        Fault { title: "one byte past a family written", entries: Entries { full_design: past_family, ..LIBRARY } },
        Fault { title: "labels cut to 16 bits", entries: Entries { full_design: cut_labels, ..LIBRARY } },
    ];

    fn past_family(
        levels: &[Level], plots: usize, p: usize, t: usize, k: usize, first: &mut [u8], second: &mut [u8],
    ) -> (u32, [u64; 4]) {
        let (number, answer) = (LIBRARY.full_design)(levels, plots, p, t, k, first, second);
        let size = answer[3] as usize;
        if size > 8 && plots < PLOTS {
            second[PLOTS * (size - 1) + plots] ^= 1;
        }
        (number, answer)
    }

    fn cut_labels(
        levels: &[Level], plots: usize, p: usize, t: usize, k: usize, first: &mut [u8], second: &mut [u8],
    ) -> (u32, [u64; 4]) {
        (LIBRARY.full_design)(&cut(levels), plots, p, t, k, first, second)
    }
}
