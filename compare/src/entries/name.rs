//! Naming: text, level table, family, plots, size, kind, place, name; the name's length.

use super::Entry;
use crate::call::{Call, Outcome};
use crate::family::{damage, of_columns};
use crate::memory::{family_buffer, inner, lent_bytes};
use crate::random::Random;
use crate::sheet::{damage_text, named_text, sheet_text, LONG_NAMES};
use crate::shrink;
use crate::trial::{sharing_trial, trial_with_columns};
use reference::{Entries, COLUMNS, FAMILY, LEVELS, NAME, PLOTS};

pub static ENTRY: Entry = Entry {
    title: "name",
    refusals: &[2, 3, 6, 7, 15],
    told: None,
    make,
    run,
    plots: |_| 0,
    steps: shrink::ALL,
    calls: 8000,
};

fn make(random: &mut Random) -> Call {
    let sharing = !random.once_in(3);
    let trial = if sharing { sharing_trial(random) } else { trial_with_columns(random) };
    // Only the first line counts; what follows it may be anything.
    let lines = if random.once_in(3) { trial.plots } else { 0 };
    let mut text = if random.once_in(8) { named_text(random, lines, &trial, &LONG_NAMES) } else { sheet_text(random, lines, &trial) };
    damage_text(random, &mut text);
    let mut levels = trial.level_table();
    let of_treatments = random.below(2);
    let closed = !sharing || random.once_in(4);
    let found = if closed { trial.families()[of_treatments].clone() } else { of_columns(random, &trial, of_treatments) };
    if random.once_in(20) {
        levels[PLOTS * random.below(2 * COLUMNS) + random.below(trial.plots)] = 0;
    }
    let mut family = family_buffer(&found);
    damage(random, trial.plots, found.len().max(1), &mut family);
    levels.resize(random.length(LEVELS), 1);
    family.resize(random.length(FAMILY), 1);
    let size = random.size(found.len());
    Call {
        plots: random.count(trial.plots),
        kind: if random.once_in(8) { random.pick(&[0, 1, 2, u32::MAX as usize]) } else { of_treatments },
        place: if random.once_in(20) { random.count(size.saturating_add(1)) } else { 1 + random.below(size) },
        sizes: [size, 0],
        lent: [if random.once_in(20) { random.pick(&[95, 96, 97, NAME - 1, NAME + 1]) } else { random.length(NAME) }, 0],
        text,
        levels,
        families: [family, Vec::new()],
        ..Call::new(&ENTRY)
    }
}

fn run(call: &Call, entries: &Entries) -> Outcome {
    let mut name = lent_bytes(call.lent[0]);
    let (family, size, kind) = (&call.families[0], call.sizes[0], call.kind as u32);
    let found = (entries.name)(&call.text, &call.levels, family, call.plots, size, kind, call.place, inner(&mut name));
    Outcome::of(found, vec![name])
}

#[cfg(feature = "library")]
pub mod library {
    use crate::entries::{cut, Fault, LIBRARY, STALE};
    use crate::names::{self, MISTAKES};
    use reference::{Entries, Level, COLUMNS, NAME, PLOTS};

    extern "C" {
        fn rachdoum_name(
            text: *const u8, text_len: usize, levels: *const Level, levels_len: usize, family: *const u8, family_len: usize,
            plots: usize, size: usize, kind: u32, place: usize, name: *mut u8, name_len: usize, answer: *mut u64,
        ) -> u32;
    }

    #[allow(clippy::too_many_arguments)]
    pub fn name(
        text: &[u8], levels: &[Level], family: &[u8], plots: usize, size: usize, kind: u32, place: usize, name: &mut [u8],
    ) -> (u32, [u64; 1]) {
        let mut answer = [STALE; 1];
        let (lent, lent_len) = (name.as_mut_ptr(), name.len());
        // Each pointer has its own length, and the answer has the header's.
        let number = unsafe {
            rachdoum_name(
                text.as_ptr(), text.len(), levels.as_ptr(), levels.len(), family.as_ptr(), family.len(), plots, size, kind, place,
                lent, lent_len, answer.as_mut_ptr(),
            )
        };
        (number, answer)
    }

    pub const FAULTS: &[Fault] = &[
        Fault { title: "one byte past a name written", entries: Entries { name: past_name, ..LIBRARY } },
        Fault { title: "labels cut to 16 bits", entries: Entries { name: cut_labels, ..LIBRARY } },
        Fault { title: "96 bytes enough for a name", entries: Entries { name: shorter, ..LIBRARY } },
        Fault { title: "161 bytes needed for a name", entries: Entries { name: longer, ..LIBRARY } },
        Fault { title: "7 asked of the family's kind alone", entries: Entries { name: own_kind_asked, ..LIBRARY } },
        Fault { title: "7 asked of both kinds for a plot family", entries: Entries { name: both_kinds_asked, ..LIBRARY } },
        Fault { title: "7 asked of columns that the first line does not count", entries: Entries { name: six_columns_asked, ..LIBRARY } },
        mistake::<1>(), mistake::<2>(), mistake::<3>(), mistake::<4>(), mistake::<5>(), mistake::<6>(), mistake::<7>(), mistake::<8>(),
        mistake::<9>(), mistake::<10>(), mistake::<11>(), mistake::<12>(), mistake::<13>(), mistake::<14>(), mistake::<15>(),
        mistake::<16>(), mistake::<17>(),
    ];

    /// One of the mistakes that a rule of names can be taken for.
    const fn mistake<const PLACE: usize>() -> Fault {
        Fault { title: MISTAKES[PLACE].1, entries: Entries { name: mistaken::<PLACE>, ..LIBRARY } }
    }

    #[allow(clippy::too_many_arguments)]
    fn mistaken<const PLACE: usize>(
        text: &[u8], levels: &[Level], family: &[u8], plots: usize, size: usize, kind: u32, place: usize, name: &mut [u8],
    ) -> (u32, [u64; 1]) {
        let found = (LIBRARY.name)(text, levels, family, plots, size, kind, place, &mut name.to_vec());
        if found.0 != 0 {
            return found;
        }
        let other = names::name(text, levels, family, plots, kind, place, MISTAKES[PLACE].0);
        name[..other.len()].copy_from_slice(&other);
        (0, [other.len() as u64])
    }

    #[allow(clippy::too_many_arguments)]
    fn past_name(
        text: &[u8], levels: &[Level], family: &[u8], plots: usize, size: usize, kind: u32, place: usize, name: &mut [u8],
    ) -> (u32, [u64; 1]) {
        let (number, answer) = (LIBRARY.name)(text, levels, family, plots, size, kind, place, name);
        let length = answer[0] as usize;
        if number == 0 && name[0] == b'#' && length < name.len() {
            name[length] = 0;
        }
        (number, answer)
    }

    #[allow(clippy::too_many_arguments)]
    fn cut_labels(
        text: &[u8], levels: &[Level], family: &[u8], plots: usize, size: usize, kind: u32, place: usize, name: &mut [u8],
    ) -> (u32, [u64; 1]) {
        (LIBRARY.name)(text, &cut(levels), family, plots, size, kind, place, name)
    }

    /// The length that a name's buffer had to have before there were suprema.
    const BEFORE: usize = 96;

    #[allow(clippy::too_many_arguments)]
    fn shorter(
        text: &[u8], levels: &[Level], family: &[u8], plots: usize, size: usize, kind: u32, place: usize, name: &mut [u8],
    ) -> (u32, [u64; 1]) {
        if !(BEFORE..NAME).contains(&name.len()) {
            return (LIBRARY.name)(text, levels, family, plots, size, kind, place, name);
        }
        let mut longer = [&name[..], &[0; NAME]].concat();
        let found = (LIBRARY.name)(text, levels, family, plots, size, kind, place, &mut longer);
        name.copy_from_slice(&longer[..name.len()]);
        found
    }

    #[allow(clippy::too_many_arguments)]
    fn longer(
        text: &[u8], levels: &[Level], family: &[u8], plots: usize, size: usize, kind: u32, place: usize, name: &mut [u8],
    ) -> (u32, [u64; 1]) {
        let lent = if name.len() == NAME { NAME - 1 } else { name.len() };
        (LIBRARY.name)(text, levels, family, plots, size, kind, place, &mut name[..lent])
    }

    /// The levels with another one in the place of each that is missing in columns of a kind.
    fn filled(levels: &[Level], kind: usize) -> Vec<Level> {
        let mut levels = levels.to_vec();
        let cells = levels.iter_mut().skip(PLOTS * COLUMNS * kind).take(PLOTS * COLUMNS);
        cells.filter(|level| **level == 0).for_each(|level| *level = Level::MAX);
        levels
    }

    #[allow(clippy::too_many_arguments)]
    fn own_kind_asked(
        text: &[u8], levels: &[Level], family: &[u8], plots: usize, size: usize, kind: u32, place: usize, name: &mut [u8],
    ) -> (u32, [u64; 1]) {
        let levels = if kind == 0 { levels.to_vec() } else { filled(levels, 0) };
        (LIBRARY.name)(text, &levels, family, plots, size, kind, place, name)
    }

    /// A plot family's name, but refused where that of a treatment family would be by 7.
    #[allow(clippy::too_many_arguments)]
    fn both_kinds_asked(
        text: &[u8], levels: &[Level], family: &[u8], plots: usize, size: usize, kind: u32, place: usize, name: &mut [u8],
    ) -> (u32, [u64; 1]) {
        match (LIBRARY.name)(text, levels, family, plots, size, 1, place, &mut name.to_vec()) {
            (7, answer) => (7, answer),
            _ => (LIBRARY.name)(text, levels, family, plots, size, kind, place, name),
        }
    }

    #[allow(clippy::too_many_arguments)]
    fn six_columns_asked(
        text: &[u8], levels: &[Level], family: &[u8], plots: usize, size: usize, kind: u32, place: usize, name: &mut [u8],
    ) -> (u32, [u64; 1]) {
        let found = (LIBRARY.name)(text, levels, family, plots, size, kind, place, &mut name.to_vec());
        let kinds = if kind == 0 { 0..COLUMNS } else { 0..2 * COLUMNS };
        let missing = |c: usize| levels[PLOTS * c..PLOTS * c + plots].contains(&0);
        if matches!(found.0, 0 | 15) && kinds.into_iter().any(missing) {
            return (7, [0]);
        }
        (LIBRARY.name)(text, levels, family, plots, size, kind, place, name)
    }
}
