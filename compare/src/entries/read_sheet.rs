//! The reader: text, level table; plots, plot columns and treatment columns.

use super::Entry;
use crate::call::{Call, Outcome};
use crate::memory::{inner, lent_levels};
use crate::random::Random;
use crate::{sheet, shrink};
use reference::{Entries, LEVELS};

pub static ENTRY: Entry = Entry {
    title: "read_sheet",
    refusals: &[1, 2, 3, 4, 5],
    told: None,
    make,
    run,
    plots: |_| 0,
    steps: shrink::TEXT,
    calls: 10_000,
};

fn make(random: &mut Random) -> Call {
    Call { lent: [random.length(LEVELS), 0], text: sheet::text(random), ..Call::new(&ENTRY) }
}

fn run(call: &Call, entries: &Entries) -> Outcome {
    let mut levels = lent_levels(call.lent[0]);
    let found = (entries.read_sheet)(&call.text, inner(&mut levels));
    Outcome { levels, ..Outcome::of(found, Vec::new()) }
}

#[cfg(feature = "library")]
pub mod library {
    use crate::entries::{Fault, LIBRARY, STALE};
    use reference::{Entries, Level};

    extern "C" {
        fn rachdoum_read_sheet(text: *const u8, text_len: usize, levels: *mut Level, levels_len: usize, answer: *mut u64) -> u32;
    }

    pub fn read_sheet(text: &[u8], levels: &mut [Level]) -> (u32, [u64; 3]) {
        let mut answer = [STALE; 3];
        let (lent, lent_len) = (levels.as_mut_ptr(), levels.len());
        // Each pointer has its own length, and the answer has the header's.
        let number = unsafe { rachdoum_read_sheet(text.as_ptr(), text.len(), lent, lent_len, answer.as_mut_ptr()) };
        (number, answer)
    }

    pub const FAULTS: &[Fault] = &[
        Fault { title: "the highest level stored one lower", entries: Entries { read_sheet: another_level, ..LIBRARY } },
        Fault { title: "the upper half of a level not stored", entries: Entries { read_sheet: lower_half, ..LIBRARY } },
        Fault { title: "levels of ten digits refused", entries: Entries { read_sheet: nine_digits, ..LIBRARY } },
        Fault { title: "4294967297 read as 1", entries: Entries { read_sheet: wrapped, ..LIBRARY } },
    ];

    fn another_level(text: &[u8], levels: &mut [Level]) -> (u32, [u64; 3]) {
        let found = (LIBRARY.read_sheet)(text, levels);
        if found.0 == 0 {
            levels.iter_mut().filter(|level| **level == Level::MAX).for_each(|level| *level -= 1);
        }
        found
    }

    /// Leaves in the upper halves what was there.
    fn lower_half(text: &[u8], levels: &mut [Level]) -> (u32, [u64; 3]) {
        let before = levels.to_vec();
        let found = (LIBRARY.read_sheet)(text, levels);
        levels.iter_mut().zip(before).for_each(|(level, before)| *level = before & 0xFFFF_0000 | *level & 0xFFFF);
        found
    }

    fn nine_digits(text: &[u8], levels: &mut [Level]) -> (u32, [u64; 3]) {
        let before = levels.to_vec();
        let found = (LIBRARY.read_sheet)(text, levels);
        // Every field of an accepted sheet that begins with a digit is a level.
        let ten_digits = |field: &[u8]| field.len() == 10 && field[0].is_ascii_digit();
        if found.0 == 0 && text.split(|&byte| byte == 9 || byte == 10).any(ten_digits) {
            levels.copy_from_slice(&before);
            return (4, [0; 3]);
        }
        found
    }

    /// Reads a number above the highest level modulo 2^32.
    fn wrapped(text: &[u8], levels: &mut [Level]) -> (u32, [u64; 3]) {
        let cut = |field: &[u8]| -> Vec<u8> {
            let digits = field.iter().take_while(|byte| byte.is_ascii_digit()).count();
            let number = String::from_utf8_lossy(&field[..digits]).parse::<u64>();
            match number.ok().filter(|&number| number > u64::from(Level::MAX)) {
                Some(number) => [(number as Level).to_string().as_bytes(), &field[digits..]].concat(),
                None => field.to_vec(),
            }
        };
        let text: Vec<u8> = text.split_inclusive(|&byte| byte == 9 || byte == 10).flat_map(cut).collect();
        (LIBRARY.read_sheet)(&text, levels)
    }
}
