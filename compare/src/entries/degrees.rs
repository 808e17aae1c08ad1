//! Degrees of freedom: family, plots, size; 32 numbers.

use super::Entry;
use crate::call::{Call, Outcome};
use crate::{family, shrink};
use reference::Entries;

pub static ENTRY: Entry = Entry {
    title: "degrees",
    refusals: &[6, 15],
    told: None,
    make: |random| family::asked(random, &ENTRY),
    run,
    plots: |_| 0,
    steps: shrink::FAMILIES,
    calls: 5000,
};

fn run(call: &Call, entries: &Entries) -> Outcome {
    Outcome::of((entries.degrees)(&call.families[0], call.plots, call.sizes[0]), Vec::new())
}

#[cfg(feature = "library")]
pub mod library {
    use crate::entries::{Fault, LIBRARY, STALE};
    use reference::Entries;

    extern "C" {
        fn rachdoum_degrees(family: *const u8, family_len: usize, plots: usize, size: usize, answer: *mut i64) -> u32;
    }

    pub fn degrees(family: &[u8], plots: usize, size: usize) -> (u32, [i64; 32]) {
        let mut answer = [STALE as i64; 32];
        // The pointer has its own length, and the answer has the header's.
        let number = unsafe { rachdoum_degrees(family.as_ptr(), family.len(), plots, size, answer.as_mut_ptr()) };
        (number, answer)
    }

    pub const FAULTS: &[Fault] =
        &[Fault { title: "33 members refused by 6 and not by 15", entries: Entries { degrees: another_refusal, ..LIBRARY } }];

    fn another_refusal(family: &[u8], plots: usize, size: usize) -> (u32, [i64; 32]) {
        let (number, answer) = (LIBRARY.degrees)(family, plots, size);
        (if size == 33 && number == 15 { 6 } else { number }, answer)
    }
}
