//! The entries that are timed. Each takes a sheet that was read and designed, and gives a call that owns all that it reads and writes.
//! A new entry is a function here and its line in the list. The one that takes formulas stands beside the list.

use crate::sheets::{with_parents, Sheet};
use reference::{Comparison, Entries, Level, COLUMNS, FAMILY, FAST, INTERACTIONS, LEVELS, NAME, PLOTS, SHEET, TABLE};
use std::fmt::Debug;

/// A call that can be made again and again, of either implementation; its answer and its memory are handed to `keep`.
pub type Call = Box<dyn FnMut(&Entries, Keep)>;
pub type Keep<'a> = &'a mut dyn FnMut(&dyn Debug);

/// An entry by its name.
pub struct Entry {
    pub title: &'static str,
    pub call: fn(&Trial) -> Call,
}

/// All entries that take sheets; the first is timed always, the others where each entry is asked for by itself.
pub static ALL: &[Entry] = &[
    Entry { title: "skeleton", call: skeleton },
    Entry { title: "read_sheet", call: read_sheet },
    Entry { title: "plot_design", call: plot_design },
    Entry { title: "full_design", call: full_design },
    Entry { title: "relation", call: relation },
    Entry { title: "degrees", call: degrees },
    Entry { title: "strata", call: strata },
    Entry { title: "compare", call: compare },
    Entry { title: "compare_all", call: compare_all },
    Entry { title: "name", call: |trial| name(trial, 0) },
    Entry { title: "name_treatment", call: |trial| name(trial, 1) },
    Entry { title: "name_all", call: name_all },
    NUMBER,
    Entry { title: "convert", call: convert },
];

/// Numbering alone, of a sheet's first column.
pub const NUMBER: Entry = Entry { title: "number", call: number };

/// The sheet of a formula, timed on formulas.
pub const FORMULA: Entry = Entry { title: "formula", call: formula };

/// The entry of this name.
pub fn titled(title: &str) -> Option<&'static Entry> {
    ALL.iter().chain([&FORMULA]).find(|entry| entry.title == title)
}

/// A sheet's text, its level table and its families; the formula that it was written from, if any, with its refusal.
#[derive(Clone)]
pub struct Trial {
    pub text: Vec<u8>,
    formula: Vec<u8>,
    refusal: u32,
    pub plots: usize,
    levels: Vec<Level>,
    columns: [usize; 2],
    families: [Vec<u8>; 2],
    sizes: [usize; 2],
}

impl Trial {
    /// Of a sheet, or of a formula, which has no line end but some byte.
    pub fn new(sheet: &Sheet) -> Trial {
        if sheet.text.is_empty() || sheet.text.contains(&b'\n') {
            return Trial::of_sheet(sheet.text.clone());
        }
        let mut text = vec![0; SHEET];
        let (refusal, [length]) = (FAST.formula)(&sheet.text, &mut text);
        text.truncate(length as usize);
        Trial { formula: sheet.text.clone(), refusal, ..Trial::of_sheet(text) }
    }

    fn of_sheet(text: Vec<u8>) -> Trial {
        let (formula, mut levels) = (Vec::new(), vec![0; LEVELS]);
        let (_, counts) = (FAST.read_sheet)(&text, &mut levels);
        let [plots, p, t] = counts.map(|count| count as usize);
        let (mut first, mut second) = (vec![0; FAMILY], vec![0; FAMILY]);
        let (_, [_, _, sizes @ ..]) = (FAST.full_design)(&levels, plots, p, t, INTERACTIONS, &mut first, &mut second);
        let (columns, families, sizes) = ([p, t], [first, second], sizes.map(|size| size as usize));
        Trial { text, formula, refusal: 0, plots, levels, columns, families, sizes }
    }

    /// The levels of the first column that the sheet has.
    fn first_column(&self) -> &[Level] {
        let first = if self.columns[0] > 0 { 0 } else { PLOTS * COLUMNS };
        &self.levels[first..first + self.plots]
    }

    /// How many classes the first column has.
    pub fn classes(&self) -> String {
        let (_, [classes]) = (FAST.number)(self.first_column(), self.plots, &mut [0; PLOTS]);
        classes.to_string()
    }

    /// The sizes of both families, or the number of the refusal.
    pub fn members(&self) -> String {
        if self.refusal != 0 {
            return format!("refused {}", self.refusal);
        }
        let mut out = vec![0; TABLE];
        let (_, length) = (FAST.skeleton)(&self.text, &mut out);
        let printed = String::from_utf8_lossy(&out[..length as usize]);
        match printed.strip_prefix("refused\t").and_then(|rest| rest.split('\t').next()) {
            Some(number) => format!("refused {number}"),
            None => format!("{} + {}", self.sizes[0], self.sizes[1]),
        }
    }
}

fn skeleton(trial: &Trial) -> Call {
    let (text, mut out) = (trial.text.clone(), vec![0; TABLE]);
    Box::new(move |entries, keep| keep(&((entries.skeleton)(&text, &mut out), &text, &out)))
}

fn read_sheet(trial: &Trial) -> Call {
    let (text, mut levels) = (trial.text.clone(), vec![0; LEVELS]);
    Box::new(move |entries, keep| keep(&((entries.read_sheet)(&text, &mut levels), &text, &levels)))
}

fn plot_design(trial: &Trial) -> Call {
    let (Trial { levels, plots, columns: [p, _], .. }, mut family) = (trial.clone(), vec![0; FAMILY]);
    Box::new(move |entries, keep| keep(&((entries.plot_design)(&levels, plots, p, &mut family), &levels, &family)))
}

fn full_design(trial: &Trial) -> Call {
    let Trial { levels, plots, columns: [p, t], .. } = trial.clone();
    let (mut first, mut second) = (vec![0; FAMILY], vec![0; FAMILY]);
    Box::new(move |entries, keep| {
        let answer = (entries.full_design)(&levels, plots, p, t, INTERACTIONS, &mut first, &mut second);
        keep(&(answer, &levels, &first, &second));
    })
}

fn relation(trial: &Trial) -> Call {
    let Trial { plots, families: [family, _], sizes: [size, _], .. } = trial.clone();
    Box::new(move |entries, keep| keep(&((entries.relation)(&family, plots, size), &family)))
}

fn degrees(trial: &Trial) -> Call {
    let Trial { plots, families: [family, _], sizes: [size, _], .. } = trial.clone();
    Box::new(move |entries, keep| keep(&((entries.degrees)(&family, plots, size), &family)))
}

fn strata(trial: &Trial) -> Call {
    let Trial { plots, families: [first, second], sizes: [a, b], .. } = trial.clone();
    Box::new(move |entries, keep| keep(&((entries.strata)(&first, a, &second, b, plots), &first, &second)))
}

/// A plot member and a treatment member of which neither is finer, so that all is asked of them: the finest such plot member, and the first
/// one that goes with it. Where there are none, the members in the middle.
fn compare(trial: &Trial) -> Call {
    let Trial { plots, families: [first, second], sizes: [a, b], .. } = trial.clone();
    let pairs = (1..=a).rev().flat_map(|i| (1..=b).map(move |j| (i, j)));
    let neither = |&(i, j): &(usize, usize)| (FAST.compare)(&first, a, i, &second, b, j, plots).1[0] > Comparison::Coarser as u64;
    let (i, j) = pairs.into_iter().find(neither).unwrap_or((a.div_ceil(2), b.div_ceil(2)));
    Box::new(move |entries, keep| keep(&((entries.compare)(&first, a, i, &second, b, j, plots), &first, &second)))
}

/// Each plot member with each treatment member, one pair after the other.
fn compare_all(trial: &Trial) -> Call {
    let Trial { plots, families: [first, second], sizes: [a, b], .. } = trial.clone();
    let mut answers = vec![(0, [0]); a * b];
    Box::new(move |entries, keep| {
        for (pair, answer) in answers.iter_mut().enumerate() {
            *answer = (entries.compare)(&first, a, 1 + pair / b, &second, b, 1 + pair % b, plots);
        }
        keep(&(&answers, &first, &second));
    })
}

/// The member in the middle of the plot family or of the treatment family.
fn name(trial: &Trial, kind: usize) -> Call {
    let Trial { text, levels, plots, families, sizes, .. } = trial.clone();
    let mut name = vec![0; NAME];
    Box::new(move |entries, keep| {
        let (family, size) = (&families[kind], sizes[kind]);
        let answer = (entries.name)(&text, &levels, family, plots, size, kind as u32, size.div_ceil(2), &mut name);
        keep(&(answer, &text, &levels, family, &name));
    })
}

/// All members of both families, one after the other.
fn name_all(trial: &Trial) -> Call {
    let Trial { text, levels, plots, families, sizes, .. } = trial.clone();
    let mut names = vec![((0, [0]), [0; NAME]); sizes[0] + sizes[1]];
    Box::new(move |entries, keep| {
        for (i, (answer, name)) in names.iter_mut().enumerate() {
            let (kind, place) = if i < sizes[0] { (0, i + 1) } else { (1, i - sizes[0] + 1) };
            *answer = (entries.name)(&text, &levels, &families[kind], plots, sizes[kind], kind as u32, place, name);
        }
        keep(&(&names, &text, &levels, &families));
    })
}

fn number(trial: &Trial) -> Call {
    let (column, mut numbers) = (trial.first_column().to_vec(), [0; PLOTS]);
    Box::new(move |entries, keep| keep(&((entries.number)(&column, column.len(), &mut numbers), &column, &numbers)))
}

/// The sheet with a parent for each plot column but the first.
fn convert(trial: &Trial) -> Call {
    let (old, mut sheet) = (with_parents(&trial.text), vec![0; SHEET]);
    Box::new(move |entries, keep| keep(&((entries.convert)(&old, &mut sheet), &old, &sheet)))
}

fn formula(trial: &Trial) -> Call {
    let (formula, mut sheet) = (trial.formula.clone(), vec![0; SHEET]);
    Box::new(move |entries, keep| keep(&((entries.formula)(&formula, &mut sheet), &formula, &sheet)))
}
