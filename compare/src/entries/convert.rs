//! Conversion of a sheet numbered within parents: text, buffer for the sheet; the sheet's length.

use super::Entry;
use crate::call::{Call, Outcome};
use crate::memory::{inner, lent_bytes};
use crate::random::Random;
use crate::{old_sheet, shrink};
use reference::{Entries, SHEET};

pub static ENTRY: Entry = Entry {
    title: "convert",
    refusals: &[2, 3, 4, 5, 6, 23],
    told: None,
    make,
    run,
    plots: |_| 0,
    steps: shrink::TEXT,
    calls: 8000,
};

fn make(random: &mut Random) -> Call {
    Call { lent: [random.length(SHEET), 0], text: old_sheet::text(random), ..Call::new(&ENTRY) }
}

fn run(call: &Call, entries: &Entries) -> Outcome {
    let mut sheet = lent_bytes(call.lent[0]);
    let found = (entries.convert)(&call.text, inner(&mut sheet));
    Outcome::of(found, vec![sheet])
}

#[cfg(feature = "library")]
pub mod library {
    use crate::entries::{Fault, LIBRARY, STALE};
    use crate::faults::{before_6, fields, instead_of, joined, one_less, past_sheet, renumber, with_lines, written_after, Lines};
    use reference::{Entries, SHEET};

    extern "C" {
        fn rachdoum_convert(old: *const u8, old_len: usize, sheet: *mut u8, sheet_len: usize, answer: *mut u64) -> u32;
    }

    pub fn convert(old: &[u8], sheet: &mut [u8]) -> (u32, [u64; 1]) {
        let mut answer = [STALE; 1];
        let (lent, lent_len) = (sheet.as_mut_ptr(), sheet.len());
        // Each pointer has its own length, and the answer has the header's.
        let number = unsafe { rachdoum_convert(old.as_ptr(), old.len(), lent, lent_len, answer.as_mut_ptr()) };
        (number, answer)
    }

    pub const FAULTS: &[Fault] = &[
        Fault { title: "the parent's own levels in place of its converted ones", entries: Entries { convert: own_parents, ..LIBRARY } },
        Fault { title: "copied columns numbered too", entries: Entries { convert: copies_numbered, ..LIBRARY } },
        Fault { title: "a parent further right taken for none", entries: Entries { convert: further_right, ..LIBRARY } },
        Fault { title: "23 before 5", entries: Entries { convert: parents_first, ..LIBRARY } },
        Fault { title: "a parent of a treatment dropped", entries: Entries { convert: treatment_parents, ..LIBRARY } },
        Fault { title: "a byte written after 23", entries: Entries { convert: written_after_23, ..LIBRARY } },
        Fault { title: "a byte past the sheet written", entries: Entries { convert: past_the_sheet, ..LIBRARY } },
        Fault { title: "2 before 6", entries: Entries { convert: length_first, ..LIBRARY } },
        Fault { title: "one byte too few is enough", entries: Entries { convert: one_byte_less, ..LIBRARY } },
    ];

    /// The text without the slash parts of the fields of its first line for which this holds.
    fn without(text: &[u8], dropped: impl Fn(usize, &[u8]) -> bool) -> Vec<u8> {
        let end = text.iter().position(|&byte| byte == 10).unwrap_or(text.len());
        let mut titles = fields(&text[..end]).pop().unwrap_or_default();
        for (field, title) in titles.iter_mut().enumerate() {
            if dropped(field, title) {
                title.truncate(title.iter().position(|&byte| byte == b'/').unwrap_or(title.len()));
            }
        }
        [&titles.join(&9), &text[end..]].concat()
    }

    /// What the library makes of a text, as fields; nothing where it refuses.
    fn lines_of(text: &[u8]) -> Option<Lines> {
        let mut sheet = vec![0; SHEET];
        let (number, [length]) = (LIBRARY.convert)(text, &mut sheet);
        (number == 0).then(|| fields(&sheet[..length as usize]))
    }

    /// Converts each column by itself, as if no other had a parent.
    fn own_parents(old: &[u8], sheet: &mut [u8]) -> (u32, [u64; 1]) {
        with_lines(LIBRARY.convert, old, sheet, |lines| {
            for column in 0..lines[0].len() {
                let alone = lines_of(&without(old, |field, _| field != column));
                let Some(alone) = alone else { continue };
                lines.iter_mut().zip(alone).skip(1).for_each(|(line, alone)| line[column] = alone[column].clone());
            }
        })
    }

    fn copies_numbered(old: &[u8], sheet: &mut [u8]) -> (u32, [u64; 1]) {
        with_lines(LIBRARY.convert, old, sheet, renumber)
    }

    fn further_right(old: &[u8], sheet: &mut [u8]) -> (u32, [u64; 1]) {
        instead_of(23, LIBRARY.convert, old, sheet, |old| without(old, |_, _| true))
    }

    /// Looks at the parents of a sheet with too many plots, or with none, as if it had one.
    fn parents_first(old: &[u8], sheet: &mut [u8]) -> (u32, [u64; 1]) {
        let found = (LIBRARY.convert)(old, sheet);
        let mut lines = fields(old);
        let plot = vec![b"1".to_vec(); lines.first().map_or(0, Vec::len)];
        lines.truncate(1);
        lines.push(plot);
        match found.0 {
            5 if (LIBRARY.convert)(&joined(&lines), &mut vec![0; SHEET]).0 == 23 => (23, [0]),
            _ => found,
        }
    }

    fn treatment_parents(old: &[u8], sheet: &mut [u8]) -> (u32, [u64; 1]) {
        instead_of(3, LIBRARY.convert, old, sheet, |old| without(old, |_, title| title.starts_with(b"t:")))
    }

    fn written_after_23(old: &[u8], sheet: &mut [u8]) -> (u32, [u64; 1]) {
        written_after(23, LIBRARY.convert, old, sheet)
    }

    fn past_the_sheet(old: &[u8], sheet: &mut [u8]) -> (u32, [u64; 1]) {
        past_sheet(LIBRARY.convert, old, sheet)
    }

    fn length_first(old: &[u8], sheet: &mut [u8]) -> (u32, [u64; 1]) {
        before_6(2, LIBRARY.convert, old, sheet)
    }

    fn one_byte_less(old: &[u8], sheet: &mut [u8]) -> (u32, [u64; 1]) {
        one_less(LIBRARY.convert, old, sheet)
    }
}
