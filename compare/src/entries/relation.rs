//! The relation: family, plots, size; the size, 32 words, 32 words of direct neighbours and 32 counts.

use super::Entry;
use crate::call::{Call, Outcome};
use crate::{family, shrink};
use reference::Entries;

pub static ENTRY: Entry = Entry {
    title: "relation",
    refusals: &[6, 15],
    told: None,
    make: |random| family::asked(random, &ENTRY),
    run,
    plots: |_| 0,
    steps: shrink::FAMILIES,
    calls: 5000,
};

fn run(call: &Call, entries: &Entries) -> Outcome {
    Outcome::of((entries.relation)(&call.families[0], call.plots, call.sizes[0]), Vec::new())
}

#[cfg(feature = "library")]
pub mod library {
    use crate::entries::{Fault, LIBRARY, STALE};
    use reference::Entries;

    extern "C" {
        fn rachdoum_relation(family: *const u8, family_len: usize, plots: usize, size: usize, answer: *mut u32) -> u32;
    }

    pub fn relation(family: &[u8], plots: usize, size: usize) -> (u32, [u32; 97]) {
        let mut answer = [STALE as u32; 97];
        // The pointer has its own length, and the answer has the header's.
        let number = unsafe { rachdoum_relation(family.as_ptr(), family.len(), plots, size, answer.as_mut_ptr()) };
        (number, answer)
    }

    pub const FAULTS: &[Fault] =
        &[Fault { title: "stale last number after refusal 15", entries: Entries { relation: stale, ..LIBRARY } }];

    fn stale(family: &[u8], plots: usize, size: usize) -> (u32, [u32; 97]) {
        let (number, mut answer) = (LIBRARY.relation)(family, plots, size);
        if number == 15 && size == 5 {
            answer[96] = 0xD15E_A5ED;
        }
        (number, answer)
    }
}
