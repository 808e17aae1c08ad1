//! Changes that keep a sheet or a formula well formed, beside libFuzzer's own changes of bytes.

use crate::formula;
use reference::{Level, COLUMNS, PLOTS};
use std::collections::BTreeSet;

extern "C" {
    fn LLVMFuzzerMutate(data: *mut u8, size: usize, most: usize) -> usize;
}

/// Most columns of both kinds.
const FIELDS: usize = 2 * COLUMNS;

/// Numbers from a seed (xorshift).
pub struct Chance(u64);

impl Chance {
    /// A number below `limit`, 0 if that is 0.
    pub fn below(&mut self, limit: usize) -> usize {
        self.0 ^= self.0 << 13;
        self.0 ^= self.0 >> 7;
        self.0 ^= self.0 << 17;
        (self.0 >> 11) as usize % limit.max(1)
    }
}

/// A well-formed sheet: headings, and for each plot its levels.
#[derive(Clone)]
struct Sheet {
    headings: Vec<String>,
    plots: Vec<Vec<Level>>,
}

impl Sheet {
    /// A sheet of this text, if each line has as many fields as the first and the later ones are numbers.
    fn read(text: &[u8]) -> Option<Sheet> {
        let text = std::str::from_utf8(text).ok()?.strip_suffix('\n')?;
        let mut lines = text.split('\n');
        let headings: Vec<String> = lines.next()?.split('\t').map(str::to_string).collect();
        let level = |field: &str| field.parse().ok();
        let plots: Option<Vec<Vec<Level>>> = lines.map(|line| line.split('\t').map(level).collect()).collect();
        let plots = plots?;
        let even = plots.iter().all(|plot| plot.len() == headings.len());
        (even && plots.len() <= PLOTS + 1 && headings.len() <= FIELDS + 1).then_some(Sheet { headings, plots })
    }

    fn write(&self) -> Vec<u8> {
        let mut text = self.headings.join("\t") + "\n";
        for plot in &self.plots {
            let levels: Vec<String> = plot.iter().map(Level::to_string).collect();
            text += &(levels.join("\t") + "\n");
        }
        text.into_bytes()
    }

    fn place(&self, chance: &mut Chance) -> (usize, usize) {
        (chance.below(self.plots.len()), chance.below(self.headings.len()))
    }
}

/// One change of a sheet that has a plot.
type Change = fn(&mut Sheet, &mut Chance);

const CHANGES: [Change; 18] = [
    copy_level, copy_level, exchange_levels, exchange_plots, regular_column, regular_column, combined_column, finer_columns, merged_levels,
    raised_level, add_column, remove_column, other_kind, other_parent, no_parent, repeat_plots, copy_plot, remove_plot,
];

/// A plot takes another's level.
fn copy_level(sheet: &mut Sheet, chance: &mut Chance) {
    let (u, c) = sheet.place(chance);
    let (v, _) = sheet.place(chance);
    sheet.plots[u][c] = sheet.plots[v][c];
}

/// Two plots exchange levels in one column, so that the classes keep their sizes.
fn exchange_levels(sheet: &mut Sheet, chance: &mut Chance) {
    let (u, c) = sheet.place(chance);
    let (v, _) = sheet.place(chance);
    let level = sheet.plots[u][c];
    sheet.plots[u][c] = sheet.plots[v][c];
    sheet.plots[v][c] = level;
}

fn exchange_plots(sheet: &mut Sheet, chance: &mut Chance) {
    let (u, v) = (sheet.place(chance).0, sheet.place(chance).0);
    sheet.plots.swap(u, v);
}

/// A column that is nested or crossed regularly: steps and levels divide the number of plots.
fn regular_column(sheet: &mut Sheet, chance: &mut Chance) {
    let n = sheet.plots.len();
    let divisors: Vec<usize> = (1..=n).filter(|&d| n.is_multiple_of(d)).collect();
    let step = divisors[chance.below(divisors.len())];
    let levels = divisors[chance.below(divisors.len())];
    let (_, c) = sheet.place(chance);
    for (u, plot) in sheet.plots.iter_mut().enumerate() {
        plot[c] = (u / step % levels + 1) as Level;
    }
}

/// A column becomes the combinations of two, or their sum round a circle as in a Latin square.
fn combined_column(sheet: &mut Sheet, chance: &mut Chance) {
    let (c, a, b) = (sheet.place(chance).1, sheet.place(chance).1, sheet.place(chance).1);
    let most = sheet.plots.iter().map(|plot| plot[a]).max().unwrap_or(1).max(1);
    let sum = chance.below(2) == 0;
    for plot in &mut sheet.plots {
        let (x, y) = (plot[a] % 256, plot[b] % 256);
        plot[c] = if sum { (x + y) % most + 1 } else { x * 256 + y + 1 };
    }
}

/// Two columns become the combinations of a third with each of them: their supremum is finer than the third then, or the third itself.
fn finer_columns(sheet: &mut Sheet, chance: &mut Chance) {
    let (a, c, d) = (sheet.place(chance).1, sheet.place(chance).1, sheet.place(chance).1);
    for plot in &mut sheet.plots {
        let first = plot[a] % 256;
        [c, d].into_iter().filter(|&f| f != a).for_each(|f| plot[f] = first * 256 + plot[f] % 256 + 1);
    }
}

fn merged_levels(sheet: &mut Sheet, chance: &mut Chance) {
    let (u, c) = sheet.place(chance);
    let (v, _) = sheet.place(chance);
    let (from, to) = (sheet.plots[u][c], sheet.plots[v][c]);
    relabel(sheet, c, from, to);
}

/// All plots of a class get a level that is higher by a power of two, at most the highest.
fn raised_level(sheet: &mut Sheet, chance: &mut Chance) {
    let (u, c) = sheet.place(chance);
    let from = sheet.plots[u][c];
    relabel(sheet, c, from, from.saturating_add(1 << chance.below(Level::BITS as usize)));
}

/// Another level for all plots that have this one.
fn relabel(sheet: &mut Sheet, c: usize, from: Level, to: Level) {
    sheet.plots.iter_mut().filter(|plot| plot[c] == from).for_each(|plot| plot[c] = to);
}

/// Another column with a new name, equal to one that is there.
fn add_column(sheet: &mut Sheet, chance: &mut Chance) {
    if sheet.headings.len() >= FIELDS {
        return;
    }
    let (_, c) = sheet.place(chance);
    let taken: BTreeSet<&str> = sheet.headings.iter().map(|heading| heading.get(2..).unwrap_or("")).collect();
    let name = (b'A'..=b'Z').map(|letter| format!("{0}{0}", letter as char)).find(|name| !taken.contains(name.as_str()));
    let kind = if chance.below(2) == 0 { "p:" } else { "t:" };
    sheet.headings.push(kind.to_string() + &name.unwrap_or_default());
    sheet.plots.iter_mut().for_each(|plot| plot.push(plot[c]));
    let added = sheet.headings.len() - 1;
    let rotation = chance.below(sheet.plots.len());
    let levels: Vec<Level> = sheet.plots.iter().map(|plot| plot[added]).collect();
    sheet.plots.iter_mut().zip(levels.iter().cycle().skip(rotation)).for_each(|(plot, &level)| plot[added] = level);
}

fn remove_column(sheet: &mut Sheet, chance: &mut Chance) {
    let (_, c) = sheet.place(chance);
    if sheet.headings.len() > 1 {
        sheet.headings.remove(c);
        sheet.plots.iter_mut().for_each(|plot| {
            plot.remove(c);
        });
    }
}

/// A plot column becomes a treatment column or the other way round.
fn other_kind(sheet: &mut Sheet, chance: &mut Chance) {
    let (_, c) = sheet.place(chance);
    let heading = &sheet.headings[c];
    sheet.headings[c] = match heading.strip_prefix("p:") {
        Some(name) => format!("t:{name}"),
        None => format!("p:{}", heading.get(2..).unwrap_or("")),
    };
}

/// A heading without its slash part.
fn without_parent(heading: &str) -> &str {
    heading.split('/').next().unwrap_or("")
}

/// A column gets a parent, mostly one further left.
fn other_parent(sheet: &mut Sheet, chance: &mut Chance) {
    let (_, c) = sheet.place(chance);
    let parent = if chance.below(8) == 0 { sheet.place(chance).1 } else { chance.below(c) };
    let name = without_parent(&sheet.headings[parent]).get(2..).unwrap_or("").to_string();
    sheet.headings[c] = format!("{}/{name}", without_parent(&sheet.headings[c]));
}

fn no_parent(sheet: &mut Sheet, chance: &mut Chance) {
    let (_, c) = sheet.place(chance);
    sheet.headings[c] = without_parent(&sheet.headings[c]).to_string();
}

/// All plots twice, three or five times; in one column with new levels each time.
fn repeat_plots(sheet: &mut Sheet, chance: &mut Chance) {
    let times = [2, 3, 5][chance.below(3)];
    let (_, c) = sheet.place(chance);
    let most = sheet.plots.iter().map(|plot| plot[c]).max().unwrap_or(1);
    if sheet.plots.len() * times > PLOTS || most > 1000 {
        return;
    }
    let once = sheet.plots.clone();
    for time in 1..times as Level {
        let moved = |plot: &Vec<Level>| plot.iter().enumerate().map(|(f, &level)| level + if f == c { time * most } else { 0 }).collect();
        sheet.plots.extend(once.iter().map(moved));
    }
}

fn copy_plot(sheet: &mut Sheet, chance: &mut Chance) {
    let (u, v) = (sheet.place(chance).0, sheet.place(chance).0);
    if sheet.plots.len() <= PLOTS {
        sheet.plots.insert(v, sheet.plots[u].clone());
    }
}

fn remove_plot(sheet: &mut Sheet, chance: &mut Chance) {
    let (u, _) = sheet.place(chance);
    if sheet.plots.len() > 1 {
        sheet.plots.remove(u);
    }
}

/// The text after one to four changes; nothing if it is no well-formed sheet with a plot, or would not fit.
fn changed(text: &[u8], most: usize, chance: &mut Chance) -> Option<Vec<u8>> {
    let mut sheet = Sheet::read(text)?;
    if sheet.plots.is_empty() {
        return None;
    }
    for _ in 0..1 + chance.below(4) {
        CHANGES[chance.below(CHANGES.len())](&mut sheet, chance);
    }
    let written = sheet.write();
    (written.len() <= most).then_some(written)
}

/// libFuzzer's call for a new input: three of four times a change of the formula or of the sheet, where there is one, else a change of
/// bytes.
///
/// # Safety
///
/// `data` points to `most` bytes, of which the first `size` are the text.
pub unsafe fn mutate(data: *mut u8, size: usize, most: usize, seed: u32) -> usize {
    let mut chance = Chance(u64::from(seed) << 1 | 1);
    chance.below(2);
    let text = crate::input(data, size).to_vec();
    let kept = |chance: &mut Chance| formula::changed(&text, most, chance).or_else(|| changed(&text, most, chance));
    let new = if chance.below(4) > 0 { kept(&mut chance) } else { None };
    match new {
        Some(new) => {
            std::slice::from_raw_parts_mut(data, most)[..new.len()].copy_from_slice(&new);
            new.len()
        }
        None => LLVMFuzzerMutate(data, size, most),
    }
}
