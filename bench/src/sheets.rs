//! The sheets that are timed: those of examples/, those of bench/sheets/, and hard shapes that are made here.

use reference::Level;
use std::{fs, io, path::Path};

/// A sheet and what it is called in the tables.
pub struct Sheet {
    pub title: String,
    pub text: Vec<u8>,
}

/// Levels of five crossed columns on 240 plots.
pub const CROSSED: [usize; 5] = [2, 2, 2, 3, 10];
const FIVE: &str = "p:Aa p:Bb p:Cc p:Dd p:Ee";
const FIVE_TREATED: &str = "t:Ff t:Gg t:Hh t:Ii t:Jj";
/// Levels from here on are as long as levels can be, ten digits.
const LONG: usize = 4_000_000_000;

/// A sheet with these headings; the level of field f on plot u is `level(u, f) + 1`.
pub fn sheet(title: &str, headings: &str, plots: usize, level: impl Fn(usize, usize) -> usize) -> Sheet {
    let fields = headings.split(' ').count();
    let mut text = headings.replace(' ', "\t") + "\n";
    for u in 0..plots {
        let line: Vec<String> = (0..fields).map(|f| (level(u, f) + 1).to_string()).collect();
        text += &(line.join("\t") + "\n");
    }
    Sheet { title: title.to_string(), text: text.into_bytes() }
}

/// Level of crossed column f on plot u, where column f has `sizes[f]` levels.
pub fn crossed(sizes: &[usize], u: usize, f: usize) -> usize {
    let step: usize = sizes[..f].iter().product();
    u / step % sizes[f]
}

/// The sheet as one that is numbered within parents: each plot column after the first has the one before it as its parent.
pub fn with_parents(text: &[u8]) -> Vec<u8> {
    let end = text.iter().position(|&byte| byte == b'\n').unwrap_or(text.len());
    let (mut line, mut last) = (Vec::new(), None);
    for field in text[..end].split_inclusive(|&byte| byte == b'\t') {
        let title = field.strip_suffix(b"\t").unwrap_or(field);
        line.extend_from_slice(title);
        if let Some(name) = title.strip_prefix(b"p:") {
            line.extend(last.replace(name).into_iter().flat_map(|parent: &[u8]| [&b"/"[..], parent].concat()));
        }
        line.extend_from_slice(&field[title.len()..]);
    }
    line.extend_from_slice(&text[end..]);
    line
}

/// Every file of a folder whose name ends so, in the order of the names.
pub fn folder(path: &Path, ending: &str) -> io::Result<Vec<Sheet>> {
    let entries: Result<Vec<_>, _> = fs::read_dir(path)?.collect();
    let mut files: Vec<_> = entries?.into_iter().map(|entry| entry.path()).collect();
    files.retain(|file| file.is_file() && file.to_string_lossy().ends_with(ending));
    files.sort();
    files.into_iter().map(|file| from_file(&file)).collect()
}

/// One sheet file, called by its name.
pub fn from_file(file: &Path) -> io::Result<Sheet> {
    let title = file.file_stem().unwrap_or_default().to_string_lossy().into_owned();
    Ok(Sheet { title, text: fs::read(file)? })
}

/// The longest sheet that can be accepted: 240 plots, 12 columns, names of 12 letters and levels of ten digits.
fn widest() -> Sheet {
    let kinds = ["p", "p", "p", "p", "p", "p", "t", "t", "t", "t", "t", "t"];
    let names: Vec<String> = kinds.iter().enumerate().map(|(i, kind)| format!("{kind}:Longname{:04}", i + 1)).collect();
    let nested = [60, 20, 10, 5];
    let treated = [(60, 2), (20, 3), (10, 2), (5, 2), (1, 5)];
    sheet("widest: 12 columns, 31,860 bytes", &names.join(" "), 240, |u, f| {
        LONG + match f {
            0..=3 => u / nested[f],
            4 => u % 5,
            5 => u / 20 * 5 + u % 5,
            11 => 1 - u / 60 % 2,
            _ => u / treated[f - 6].0 % treated[f - 6].1,
        }
    })
}

/// 120 sensors listed by serial numbers of 8 to 10 digits, ten in each of twelve huts, each in two weeks: a cable for each hut, a gain
/// for each sensor and a filter for each week.
fn serial_numbers() -> Sheet {
    // Numbers with gaps, from 12345678 up to 4227098269.
    let serial = |sensor: usize| 12_345_677 + 297_631 * sensor * sensor;
    sheet("serial numbers of 8 to 10 digits", "p:Hut p:Sensor p:Week t:Cable t:Gain t:Filter", 240, |u, f| match f {
        0 => u / 20,
        1 => serial(u / 2),
        3 => u / 20 % 3,
        4 => u / 2 % 2,
        _ => u % 2,
    })
}

/// Sheets, most of them of twelve columns, whose members are mostly suprema of columns and no infima.
fn suprema() -> Vec<Sheet> {
    let names = ["Aa", "Bb", "Cc", "Dd", "Ee", "Ff", "Gg", "Hh", "Ii", "Jj", "Kk", "Ll"];
    let headings = |name: &dyn Fn(usize) -> String| {
        let heading = |f: usize| format!("{}:{}", if f < 6 { 'p' } else { 't' }, name(f));
        (0..12).map(heading).collect::<Vec<_>>().join(" ")
    };
    let short = headings(&|f| names[f].to_string());
    // 30 blocks of eight plots, which are three digits of two levels. A column joins the two plots of a block that differ by its number;
    // those of 16 and more join the same plots of all blocks too.
    let joined = |columns: [usize; 12]| move |u: usize, f: usize| {
        let plot = u % 8;
        plot.min(plot ^ (columns[f] % 8)) + if columns[f] < 16 { 8 * (u / 8) } else { 0 }
    };
    // Six digits of two levels: all columns tell the first, and each tells a sum of others.
    let sums = [2, 4, 6, 10, 12, 14, 16, 32, 48, 24, 40, 56];
    let sum = |u: usize, f: usize| u % 2 * 2 + (u & sums[f]).count_ones() as usize % 2;
    // Six points of four plots, paired in one way by the first column and in another way by the supremum of the others.
    let refused = |u: usize, f: usize| match f {
        0 => [0, 1, 0, 2, 1, 2][u / 4],
        1 => u / 4,
        2 => u / 8 * 2 + u / 2 % 2,
        _ => u / 8 * 2 + u % 2,
    };
    vec![
        sheet("suprema: 12 columns, 32 + 32 members", &short, 240, joined([1, 2, 4, 7, 16, 3, 5, 6, 1, 2, 16, 4])),
        sheet("suprema: each column of both kinds", &short, 240, joined([1, 2, 4, 7, 16, 17, 2, 1, 7, 4, 16, 17])),
        sheet("suprema: names of up to 158 bytes", &headings(&|f| format!("Longname{:04}", f + 1)), 64, sum),
        sheet("suprema: one named in a refusal by 13", "p:Cc p:Pp t:Aa t:Bb", 24, refused),
    ]
}

/// Sheets of many members that are accepted.
fn accepted() -> Vec<Sheet> {
    let both = format!("{FIVE} {FIVE_TREATED}");
    let five = |u: usize, f: usize| crossed(&CROSSED, u, f % 5);
    // The treated columns are the plot columns turned by each other, so that suprema give what no column does.
    let turned = |u: usize, f: usize| match f {
        5 => (five(u, 0) + five(u, 1)) % 2,
        6 => (five(u, 1) + five(u, 2)) % 2,
        7 => five(u, 2),
        8 => five(u, 3),
        _ => five(u, f),
    };
    let nested = |u: usize, f: usize| u / [120, 60, 30, 10, 5, 1, 60, 30, 10, 5][f] % if f < 6 { 240 } else { 2 + (f == 8) as usize };
    let square = |u: usize, f: usize| match f {
        0 => u / 60,
        1 => u / 15 % 4,
        2 => u / 15,
        3 => (u / 60 + u / 15) % 4,
        4 => u % 3,
        _ => u % 15 / 3,
    };
    let parity = |u: usize| u.count_ones() as usize % 2;
    let halves = |u: usize, f: usize| match f {
        0 => u / 16 % 15,
        1 => u / 16 * 2 + parity(u % 16),
        _ => u >> (f - 2) & 1,
    };
    vec![
        widest(),
        serial_numbers(),
        sheet("32 plot members", FIVE, 240, five),
        sheet("32 treatment members", FIVE_TREATED, 240, five),
        sheet("32 plot and 32 treatment members", &both, 240, five),
        sheet("32 plot members, turned treatments", &format!("{FIVE} t:Ff t:Gg t:Hh t:Ii"), 240, turned),
        sheet("six nested, four treatments", "p:Aa p:Bb p:Cc p:Dd p:Ee p:Ff t:Gg t:Hh t:Ii t:Jj", 240, nested),
        sheet("squares with parts", "p:Row p:Column p:Cell t:Root t:Soil t:Gain", 240, square),
        sheet("confounded halves", "p:Block p:Half t:Aa t:Bb t:Cc t:Dd", 240, halves),
        sheet("240 single plots", "p:Plot t:Treat", 240, |u, f| if f == 0 { u } else { 239 - u }),
    ]
}

/// Refused sheets that ask for much work first.
fn refused() -> Vec<Sheet> {
    let both = format!("{FIVE} {FIVE_TREATED}");
    let five = |u: usize, f: usize| crossed(&CROSSED, u, f % 5);
    let other = |u: usize| match u {
        8 => 40,
        40 => 8,
        _ => u,
    };
    let swapped = |u: usize, f: usize| five(if f == 4 { other(u) } else { u }, f);
    let moved = |u: usize, f: usize| five(if f < 5 { u } else { other(u) }, f);
    let twice = |u: usize, f: usize| crossed(&[2, 2, 2, 3, 5], u, f);
    let many = |u: usize, f: usize| match f {
        0..=4 => five(u, f),
        5 => (five(u, 0) + five(u, 1)) % 2,
        _ => u,
    };
    let last = |u: usize, f: usize| if (u, f) == (239, 9) { Level::MAX as usize } else { LONG + five(u, f) };
    vec![
        sheet("refused by 4 at the last level", &both, 240, last),
        sheet("refused by 5, 32,768 bytes", "p:Aab", 16_381, |_, _| 0),
        sheet("refused by 8, 33 members", FIVE, 240, twice),
        sheet("refused by 8, 64 members", "p:Aa p:Bb p:Cc p:Dd p:Ee p:Ff", 192, |u, f| crossed(&[2, 2, 2, 2, 2, 6], u, f)),
        sheet("refused by 11", "t:Aa t:Bb t:Cc t:Dd t:Ee t:Ff", 192, |u, f| crossed(&[2, 2, 2, 2, 2, 6], u, f)),
        sheet("refused by 12", FIVE_TREATED, 240, swapped),
        sheet("refused by 13", &both, 240, moved),
        sheet("refused by 14", &format!("{FIVE} t:Gain t:Plot"), 240, many),
    ]
}

/// Plots that hang together in long chains of pairs.
fn chains() -> Vec<Sheet> {
    let pairs = |u: usize, f: usize| (u + f) % 240 / 2;
    // The same ring, its plots listed in another order: 77 and 240 have no common divisor.
    let mixed = |u: usize, f: usize| pairs(u * 77 % 240, f);
    let rings = |u: usize, f: usize| match f {
        0 => u / 2,
        1 => u / 4 * 2 + u.div_ceil(2) % 2,
        _ => u / 4,
    };
    vec![
        sheet("ring of pairs, refused by 10", "p:Aa p:Bb", 240, pairs),
        sheet("mixed ring of pairs, refused by 10", "p:Aa p:Bb", 240, mixed),
        sheet("ring of pairs, refused by 12", "t:Aa t:Bb", 240, pairs),
        sheet("mixed ring, refused by 13", "p:Aa t:Bb", 240, mixed),
        sheet("sixty rings of four", "p:Aa p:Bb t:Cc", 240, rings),
    ]
}

/// All sheets, the folders' first.
pub fn all() -> io::Result<Vec<Sheet>> {
    let here = Path::new(env!("CARGO_MANIFEST_DIR"));
    let mut sheets = folder(&here.join("../examples"), ".sheet")?;
    sheets.extend(folder(&here.join("sheets"), ".sheet")?);
    sheets.extend(accepted());
    sheets.extend(suprema());
    sheets.extend(refused());
    sheets.extend(chains());
    Ok(sheets)
}
