//! The entries that are called on a text, a module each, and what they share. A new entry is a new file here and its line in the list
//! below.
//!
//! Each takes what the earlier ones left: the text, the level table that was read from it, the families that were designed from that.
//! Where something is chosen, it is taken from the text's hash, so that both implementations are asked the same.

use crate::hash;
use crate::memory::Guarded;
use reference::{Entries, Level, Writer, COLUMNS, FAMILY, INTERACTIONS, LEVELS, MEMBERS, PLOTS, SHEET};
use std::collections::BTreeMap;

/// The modules of the entries, and their calls in the order in which they are made.
macro_rules! entries {
    ($($name:ident,)*) => {
        $(mod $name;)*
        const ALL: &[fn(&mut Run)] = &[$($name::call),*];
    };
}

entries! {
    formula,
    convert,
    skeleton,
    read_sheet,
    plot_design,
    full_design,
    strata,
    relation,
    degrees,
    compare,
    name,
    number,
}

/// Longest text and longest buffer for a table that are lent.
pub const MOST: usize = 1 << 16;

/// What an implementation is lent.
pub struct Lent {
    text: Guarded,
    levels: Guarded,
    families: [Guarded; 2],
    /// What one entry alone is lent, by its name.
    own: BTreeMap<&'static str, Guarded>,
}

impl Lent {
    #[allow(clippy::new_without_default)]
    pub fn new() -> Lent {
        let room = Guarded::new;
        let families = [room(FAMILY + 64), room(FAMILY + 64)];
        Lent { text: room(MOST), levels: room(size_of::<Level>() * LEVELS + 64), families, own: BTreeMap::new() }
    }
}

/// The entries that were called, each with its refusal and the numbers answered.
pub type Said = Vec<(&'static str, u32, Vec<i64>)>;

/// The entries of one implementation, run on one text; everything that they answer and leave.
struct Run<'a> {
    entries: &'a Entries,
    lent: &'a mut Lent,
    /// The text's hash.
    chosen: usize,
    plots: usize,
    /// Columns of both kinds, and k.
    columns: [usize; 2],
    k: usize,
    /// The sizes of the families that were designed.
    sizes: [usize; 2],
    /// The families' sizes for entries that take families, and whether the two are exchanged.
    asked: [usize; 2],
    exchanged: bool,
    said: Said,
    left: Vec<Vec<u8>>,
}

impl Run<'_> {
    /// Takes down what an entry answered: its refusal, and its numbers or their bits.
    fn say(&mut self, entry: &'static str, refusal: u32, answer: impl IntoIterator<Item = i64>) {
        self.said.push((entry, refusal, answer.into_iter().collect()));
    }
}

/// The families that entries are asked about, as they were exchanged.
fn families(lent: &mut Lent, exchanged: bool) -> [&mut [u8]; 2] {
    let [first, second] = &mut lent.families;
    if exchanged { [second.bytes(), first.bytes()] } else { [first.bytes(), second.bytes()] }
}

/// All that one implementation makes of a text.
pub fn outcome(entries: &Entries, lent: &mut Lent, text: &[u8]) -> (Said, Vec<Vec<u8>>) {
    let chosen = hash(text);
    lent.text.lend(text.len()).copy_from_slice(text);
    lent.levels.lend_levels(LEVELS + chosen % 3).fill(chosen as Level);
    lent.families[0].lend(FAMILY).fill(!chosen as u8);
    lent.families[1].lend(FAMILY + chosen % 5).fill(chosen as u8);
    let (none, said, left) = ([0; 2], Vec::new(), Vec::new());
    let mut run =
        Run { entries, lent, chosen, plots: 0, columns: none, k: 0, sizes: none, asked: none, exchanged: false, said, left };
    ALL.iter().for_each(|call| call(&mut run));
    let Lent { text, levels, families: [first, second], .. } = &mut *run.lent;
    run.left.extend([text, levels, first, second].map(|room| room.bytes().to_vec()));
    (run.said, run.left)
}

/// An entry that writes a sheet from the text, into a buffer that is long enough and sometimes into one that is too short. In one of two
/// runs the sheet takes the text's place.
fn write_sheet(run: &mut Run, title: &'static str, entry: Writer, chosen: usize) {
    if chosen % 8 == 1 {
        sheet_in(run, title, entry, SHEET - 1 - chosen / 8 % if chosen % 16 == 1 { SHEET } else { 2 });
    }
    let sheet = sheet_in(run, title, entry, SHEET + if chosen.is_multiple_of(4) { chosen / 4 % 100 } else { 0 });
    run.left.push(run.lent.text.bytes().to_vec());
    if chosen & 64 == 0 && !sheet.is_empty() {
        run.lent.text.lend(sheet.len()).copy_from_slice(&sheet);
    }
}

/// The sheet that such an entry writes in a buffer of this length; empty after a refusal.
fn sheet_in(run: &mut Run, title: &'static str, entry: Writer, length: usize) -> Vec<u8> {
    let sheet = run.lent.own.entry(title).or_insert_with(|| Guarded::new(MOST)).lend(length);
    sheet.fill(!run.chosen as u8);
    let (number, [written]) = entry(run.lent.text.bytes(), sheet);
    let left = sheet.to_vec();
    run.say(title, number, [written as i64]);
    let text = left[..(written as usize).min(length)].to_vec();
    run.left.push(left);
    text
}

/// One of the columns used, or one behind them: its place in the level table.
fn column([p, t]: [usize; 2], chosen: usize) -> usize {
    let c = chosen % (p + t + 1);
    if c < p { c } else { COLUMNS + (c - p) % COLUMNS }
}

/// Plots, columns and k; in one of four runs one of them, or a level, is what no sheet gives.
fn disturb_counts(run: &mut Run) {
    let (levels, n) = (run.lent.levels.levels(), run.plots);
    let at = run.chosen >> 16;
    match run.chosen >> 4 & 31 {
        0 => run.plots = 0,
        1 => run.plots = PLOTS + 1 + at % 20,
        2 => run.columns[0] = COLUMNS + 1,
        3 => run.columns[1] = COLUMNS + 1,
        4 => run.k = at % 2 * (INTERACTIONS + 1),
        5..=7 => {
            // A level is missing.
            levels[PLOTS * column(run.columns, at) + at / 13 % n.max(1)] = 0;
        }
        _ => (),
    }
}

/// In some runs the families are exchanged for the entries that take families, a byte of one is another, or its size is.
fn disturb_families(run: &mut Run) {
    let at = run.chosen >> 16;
    run.asked = run.sizes;
    match run.chosen >> 10 & 15 {
        0 => (run.exchanged, run.asked) = (true, [run.sizes[1], run.sizes[0]]),
        1 => run.lent.families[1].bytes()[at % MEMBERS * PLOTS + at / MEMBERS % PLOTS] ^= 1 << (at % 3),
        2 => run.asked[at % 2] += 1,
        3 => run.asked[at % 2] = at / 2 % (MEMBERS + 2),
        _ => (),
    }
}
