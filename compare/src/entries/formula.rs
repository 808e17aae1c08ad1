//! The sheet of a formula: text, buffer for the sheet; the sheet's length.

use super::Entry;
use crate::call::{Call, Outcome};
use crate::memory::{inner, lent_bytes};
use crate::random::Random;
use crate::{formula, shrink};
use reference::{Entries, SHEET};

pub static ENTRY: Entry = Entry {
    title: "formula",
    refusals: &[6, 17, 18],
    told: None,
    make,
    run,
    plots: |_| 0,
    steps: &[shrink::lent, formula::smaller, shrink::bytes],
    calls: 8000,
};

fn make(random: &mut Random) -> Call {
    Call { lent: [random.length(SHEET), 0], text: formula::text(random), ..Call::new(&ENTRY) }
}

fn run(call: &Call, entries: &Entries) -> Outcome {
    let mut sheet = lent_bytes(call.lent[0]);
    let found = (entries.formula)(&call.text, inner(&mut sheet));
    Outcome::of(found, vec![sheet])
}

#[cfg(feature = "library")]
pub mod library {
    use crate::entries::{Fault, LIBRARY, STALE};
    use crate::faults::{before_6, instead_of, one_less, past_sheet, renumber, with_lines, written_after, Found, Lines};
    use reference::{Entries, COLUMNS, PLOTS};

    extern "C" {
        fn rachdoum_formula(formula: *const u8, formula_len: usize, sheet: *mut u8, sheet_len: usize, answer: *mut u64) -> u32;
    }

    pub fn formula(text: &[u8], sheet: &mut [u8]) -> Found {
        let mut answer = [STALE; 1];
        let (lent, lent_len) = (sheet.as_mut_ptr(), sheet.len());
        // Each pointer has its own length, and the answer has the header's.
        let number = unsafe { rachdoum_formula(text.as_ptr(), text.len(), lent, lent_len, answer.as_mut_ptr()) };
        (number, answer)
    }

    pub const FAULTS: &[Fault] = &[
        Fault { title: "crossing that nests", entries: Entries { formula: all_nested, ..LIBRARY } },
        Fault { title: "a name alone, without those that it is nested in", entries: Entries { formula: all_crossed, ..LIBRARY } },
        Fault { title: "a later item nested in the one before it alone", entries: Entries { formula: nearest_alone, ..LIBRARY } },
        Fault { title: "the last name slowest", entries: Entries { formula: last_slowest, ..LIBRARY } },
        Fault { title: "18 before 17", entries: Entries { formula: names_first, ..LIBRARY } },
        Fault { title: "two operators in one list", entries: Entries { formula: first_operator, ..LIBRARY } },
        Fault { title: "brackets around a single item refused", entries: Entries { formula: no_brackets, ..LIBRARY } },
        Fault { title: "names compared without their case", entries: Entries { formula: without_case, ..LIBRARY } },
        Fault { title: "a count with a leading zero taken", entries: Entries { formula: leading_zeros, ..LIBRARY } },
        Fault { title: "seven names taken", entries: Entries { formula: plots_alone, ..LIBRARY } },
        Fault { title: "a number of plots that wraps in 32 bits", entries: Entries { formula: wraps_in_32, ..LIBRARY } },
        Fault { title: "a number of plots that wraps in 64 bits", entries: Entries { formula: wraps_in_64, ..LIBRARY } },
        Fault { title: "a byte written after 18", entries: Entries { formula: written_after_18, ..LIBRARY } },
        Fault { title: "a byte past the sheet written", entries: Entries { formula: past_the_sheet, ..LIBRARY } },
        Fault { title: "17 before 6", entries: Entries { formula: text_first, ..LIBRARY } },
        Fault { title: "one byte too few is enough", entries: Entries { formula: one_byte_less, ..LIBRARY } },
    ];

    /// The text with one byte in the place of each of some.
    fn with(text: &[u8], bytes: &[u8], other: u8) -> Vec<u8> {
        text.iter().map(|byte| if bytes.contains(byte) { other } else { *byte }).collect()
    }

    /// The names and the counts of a text that is a formula.
    fn items(text: &[u8]) -> Vec<(String, u64)> {
        let text = String::from_utf8_lossy(text).replace(['(', ')'], "");
        let item = |item: &str| item.split_once('=').map(|(name, count)| (name.to_string(), count.parse().unwrap_or(0)));
        text.split(['/', '*']).filter_map(item).collect()
    }

    fn counts(text: &[u8]) -> Vec<usize> {
        items(text).iter().map(|(_, count)| *count as usize).collect()
    }

    /// The numbers that a plot has of the names, the last name fastest.
    fn numbers(mut plot: usize, counts: &[usize]) -> Vec<usize> {
        let mut found: Vec<usize> = counts.iter().rev().map(|count| (plot % count, plot /= count).0).collect();
        found.reverse();
        found
    }

    fn all_nested(text: &[u8], sheet: &mut [u8]) -> Found {
        instead_of(0, LIBRARY.formula, text, sheet, |text| with(text, b"*", b'/'))
    }

    fn all_crossed(text: &[u8], sheet: &mut [u8]) -> Found {
        instead_of(0, LIBRARY.formula, text, sheet, |text| with(text, b"/", b'*'))
    }

    /// Only for a list without brackets.
    fn nearest_alone(text: &[u8], sheet: &mut [u8]) -> Found {
        with_lines(LIBRARY.formula, text, sheet, |lines| {
            let counts = counts(text);
            if !text.contains(&b'/') || text.contains(&b'(') {
                return;
            }
            for (plot, line) in lines.iter_mut().skip(1).enumerate() {
                let numbers = numbers(plot, &counts);
                (1..counts.len()).for_each(|name| line[name] = format!("{} {}", numbers[name - 1], numbers[name]).into_bytes());
            }
            renumber(lines);
        })
    }

    fn last_slowest(text: &[u8], sheet: &mut [u8]) -> Found {
        with_lines(LIBRARY.formula, text, sheet, |lines| {
            let counts = counts(text);
            let mut order: Vec<usize> = (1..lines.len()).collect();
            order.sort_by_key(|line| numbers(line - 1, &counts).into_iter().rev().collect::<Vec<usize>>());
            let plots: Lines = order.into_iter().map(|line| lines[line].clone()).collect();
            lines.splice(1.., plots);
            renumber(lines);
        })
    }

    fn names_first(text: &[u8], sheet: &mut [u8]) -> Found {
        let names = text.iter().filter(|&&byte| byte == b'=').count();
        match (LIBRARY.formula)(text, sheet) {
            (17, _) if names > COLUMNS => (18, [0]),
            found => found,
        }
    }

    fn first_operator(text: &[u8], sheet: &mut [u8]) -> Found {
        let first = text.iter().copied().find(|byte| b"/*".contains(byte)).unwrap_or(b'/');
        instead_of(17, LIBRARY.formula, text, sheet, |text| with(text, b"/*", first))
    }

    fn no_brackets(text: &[u8], sheet: &mut [u8]) -> Found {
        let single = |inside: &[u8]| inside.iter().find(|byte| b")/*".contains(byte)) == Some(&b')');
        let refused = text.split(|&byte| byte == b'(').skip(1).any(single);
        instead_of(0, LIBRARY.formula, text, sheet, |text| if refused { Vec::new() } else { text.to_vec() })
    }

    fn without_case(text: &[u8], sheet: &mut [u8]) -> Found {
        let names: Vec<String> = items(text).into_iter().map(|(name, _)| name.to_lowercase()).collect();
        let equal = (0..names.len()).any(|name| names[..name].contains(&names[name]));
        instead_of(0, LIBRARY.formula, text, sheet, |text| if equal { Vec::new() } else { text.to_vec() })
    }

    fn leading_zeros(text: &[u8], sheet: &mut [u8]) -> Found {
        instead_of(17, LIBRARY.formula, text, sheet, |text| {
            let mut text = String::from_utf8_lossy(text).into_owned();
            while text.contains("=0") {
                text = text.replace("=0", "=");
            }
            text.into_bytes()
        })
    }

    /// Takes a formula that is too large where its plots, counted so, are few enough; nothing is written.
    fn counted(text: &[u8], sheet: &mut [u8], plots: impl Fn(&[u64]) -> Option<u64>) -> Found {
        let found = (LIBRARY.formula)(text, sheet);
        let counts: Vec<u64> = items(text).iter().map(|(_, count)| *count).collect();
        let few = found.0 == 18 && plots(&counts).is_some_and(|plots| plots <= PLOTS as u64);
        if few { (0, [0]) } else { found }
    }

    /// The number of plots, if it has room in 64 bits.
    fn product(counts: &[u64]) -> Option<u64> {
        counts.iter().try_fold(1u64, |plots, &count| plots.checked_mul(count))
    }

    fn plots_alone(text: &[u8], sheet: &mut [u8]) -> Found {
        counted(text, sheet, product)
    }

    fn wraps_in_32(text: &[u8], sheet: &mut [u8]) -> Found {
        counted(text, sheet, |counts| product(counts).filter(|_| counts.len() <= COLUMNS).map(|plots| plots % (1 << 32)))
    }

    fn wraps_in_64(text: &[u8], sheet: &mut [u8]) -> Found {
        let wrapped = |counts: &[u64]| counts.iter().fold(1u64, |plots, &count| plots.wrapping_mul(count));
        counted(text, sheet, |counts| Some(wrapped(counts)).filter(|_| product(counts).is_none()))
    }

    fn written_after_18(text: &[u8], sheet: &mut [u8]) -> Found {
        written_after(18, LIBRARY.formula, text, sheet)
    }

    fn past_the_sheet(text: &[u8], sheet: &mut [u8]) -> Found {
        past_sheet(LIBRARY.formula, text, sheet)
    }

    fn text_first(text: &[u8], sheet: &mut [u8]) -> Found {
        before_6(17, LIBRARY.formula, text, sheet)
    }

    fn one_byte_less(text: &[u8], sheet: &mut [u8]) -> Found {
        one_less(LIBRARY.formula, text, sheet)
    }
}
