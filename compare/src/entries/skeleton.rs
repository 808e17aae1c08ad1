//! The printed table: text, buffer for the table; the printed text's length.

use super::{Entry, Told};
use crate::call::{Call, Outcome};
use crate::memory::{inner, lent_bytes, GUARD};
use crate::random::Random;
use crate::{sheet, shrink};
use reference::{Entries, TABLE};

pub static ENTRY: Entry = Entry {
    title: "skeleton",
    refusals: &[6],
    told: Some(Told { title: "as printed", numbers: &[0, 2, 3, 4, 5, 8, 9, 10, 11, 12, 13, 14], of: told }),
    make,
    run,
    plots: |call| call.text.iter().filter(|&&byte| byte == 10).count(),
    steps: shrink::TEXT,
    calls: 3000,
};

fn make(random: &mut Random) -> Call {
    let text = if random.once_in(3) { sheet::sharing_text(random) } else { sheet::text(random) };
    Call { lent: [random.length(TABLE), 0], text, ..Call::new(&ENTRY) }
}

fn run(call: &Call, entries: &Entries) -> Outcome {
    let mut out = lent_bytes(call.lent[0]);
    let (refusal, length) = (entries.skeleton)(&call.text, inner(&mut out));
    Outcome::of((refusal, [length]), vec![out])
}

/// The refusal that the printed text tells, 0 for a table.
fn told(outcome: &Outcome) -> u32 {
    let length = outcome.answer[0] as usize;
    let text = outcome.bytes[0].get(GUARD..GUARD + length).unwrap_or(&[]);
    let number = text.strip_prefix(b"refused\t").and_then(|rest| rest.split(|&byte| byte == 9).next());
    let digits = number.and_then(|digits| std::str::from_utf8(digits).ok());
    digits.and_then(|digits| digits.parse().ok()).unwrap_or(0)
}

#[cfg(feature = "library")]
pub mod library {
    use crate::entries::{Fault, LIBRARY, STALE};
    use reference::Entries;

    extern "C" {
        fn rachdoum_skeleton(text: *const u8, text_len: usize, out: *mut u8, out_len: usize, answer: *mut u64) -> u32;
    }

    pub fn skeleton(text: &[u8], out: &mut [u8]) -> (u32, u64) {
        let mut answer = [STALE; 1];
        let (lent, lent_len) = (out.as_mut_ptr(), out.len());
        // Each pointer has its own length, and the answer has the header's.
        let number = unsafe { rachdoum_skeleton(text.as_ptr(), text.len(), lent, lent_len, answer.as_mut_ptr()) };
        (number, answer[0])
    }

    pub const FAULTS: &[Fault] = &[
        Fault { title: "last byte of a long table missing", entries: Entries { skeleton: cut_short, ..LIBRARY } },
        Fault { title: "a supremum in a table printed as a place", entries: Entries { skeleton: places_in_tables, ..LIBRARY } },
        Fault { title: "a supremum in a refusal printed as a place", entries: Entries { skeleton: places_in_refusals, ..LIBRARY } },
    ];

    fn cut_short(text: &[u8], out: &mut [u8]) -> (u32, u64) {
        let (number, length) = (LIBRARY.skeleton)(text, out);
        (number, if length > 300 { length - 1 } else { length })
    }
    /// The printed text, a table or not, with `#2` in the place of each field that is a supremum.
    fn with_places(text: &[u8], out: &mut [u8], refused: bool) -> (u32, u64) {
        let mut printed = out.to_vec();
        let (number, length) = (LIBRARY.skeleton)(text, &mut printed);
        let printed = &printed[..length as usize];
        if number != 0 || printed.starts_with(b"refused") != refused {
            return (LIBRARY.skeleton)(text, out);
        }
        let field = |field: &[u8]| if field.starts_with(b"S(") { [b"#2", &field[field.len() - 1..]].concat() } else { field.to_vec() };
        let other: Vec<u8> = printed.split_inclusive(|&byte| byte == 9 || byte == 10).flat_map(field).collect();
        out[..other.len()].copy_from_slice(&other);
        (0, other.len() as u64)
    }

    fn places_in_tables(text: &[u8], out: &mut [u8]) -> (u32, u64) {
        with_places(text, out, false)
    }

    fn places_in_refusals(text: &[u8], out: &mut [u8]) -> (u32, u64) {
        with_places(text, out, true)
    }
}
