//! Strata: plot family, its size, treatment family, its size, plots; 32 places of strata and 32 residuals.

use super::Entry;
use crate::call::{Call, Outcome};
use crate::family::damage;
use crate::memory::family_buffer;
use crate::random::Random;
use crate::shrink;
use crate::trial::trial;
use reference::{Entries, FAMILY};

pub static ENTRY: Entry = Entry {
    title: "strata",
    refusals: &[6, 15, 16],
    told: None,
    make,
    run,
    plots: |_| 0,
    steps: shrink::FAMILIES,
    calls: 5000,
};

fn make(random: &mut Random) -> Call {
    let trial = trial(random);
    let mut found = trial.families();
    if random.once_in(2) {
        found.iter_mut().for_each(|members| members.retain(|_| !random.once_in(5)));
    }
    let sizes = [random.size(found[0].len()), random.size(found[1].len())];
    let families = found.map(|members| {
        let mut buffer = family_buffer(&members);
        damage(random, trial.plots, members.len().max(1), &mut buffer);
        buffer.resize(random.length(FAMILY), 1);
        buffer
    });
    Call { plots: random.count(trial.plots), sizes, families, ..Call::new(&ENTRY) }
}

fn run(call: &Call, entries: &Entries) -> Outcome {
    let [first, second] = &call.families;
    Outcome::of((entries.strata)(first, call.sizes[0], second, call.sizes[1], call.plots), Vec::new())
}

#[cfg(feature = "library")]
pub mod library {
    use crate::entries::{Fault, LIBRARY, STALE};
    use reference::Entries;

    extern "C" {
        fn rachdoum_strata(
            plot_family: *const u8, plot_family_len: usize, plot_size: usize, treatment_family: *const u8,
            treatment_family_len: usize, treatment_size: usize, plots: usize, answer: *mut i64,
        ) -> u32;
    }

    pub fn strata(
        plot_family: &[u8], plot_size: usize, treatment_family: &[u8], treatment_size: usize, plots: usize,
    ) -> (u32, [i64; 64]) {
        let mut answer = [STALE as i64; 64];
        // Each pointer has its own length, and the answer has the header's.
        let number = unsafe {
            rachdoum_strata(
                plot_family.as_ptr(), plot_family.len(), plot_size, treatment_family.as_ptr(), treatment_family.len(),
                treatment_size, plots, answer.as_mut_ptr(),
            )
        };
        (number, answer)
    }

    pub const FAULTS: &[Fault] =
        &[Fault { title: "last residual off by one, more than 8 members", entries: Entries { strata: residual, ..LIBRARY } }];

    fn residual(first: &[u8], first_size: usize, second: &[u8], second_size: usize, plots: usize) -> (u32, [i64; 64]) {
        let (number, mut answer) = (LIBRARY.strata)(first, first_size, second, second_size, plots);
        if number == 0 && first_size > 8 {
            answer[31 + first_size] += 1;
        }
        (number, answer)
    }
}
