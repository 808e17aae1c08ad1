//! How the time of the whole table grows with plots and with members.

use crate::entries::{self, Trial};
use crate::series::{Series, BY_PLOTS};
use crate::sheets::{crossed, sheet, Sheet};
use std::{fs, io, path::Path, time::Duration};

/// Crossed columns on 240 plots whose infima are 2, 4, 8, 16 and 32 members.
const SIZES: [&[usize]; 5] = [&[240], &[15, 16], &[4, 6, 10], &[2, 3, 4, 10], &[2, 2, 2, 3, 10]];
const LETTERS: [&str; 5] = ["Aa", "Bb", "Cc", "Dd", "Ee"];

/// The data file's first line. A series of sheets is a block; two empty lines separate blocks.
const HEADING: &str = "# The time of the printed table in microseconds: written by `bench --growth`, drawn by bench/growth.gp";

/// Three rows crossed with five columns, over and over: filters by row, gains by column.
fn by_plots(plots: usize) -> Sheet {
    let title = format!("{plots} plots");
    sheet(&title, "p:Row p:Column t:Filter t:Gain", plots, |u, f| if f % 2 == 0 { u % 3 } else { u / 3 % 5 })
}

/// Crossed columns on 240 plots as plot columns, treatment columns or both.
fn by_members(sizes: &[usize], kinds: &str, name: &str) -> Sheet {
    let named = |kind: char| LETTERS[..sizes.len()].iter().map(move |name| format!("{kind}:{}{name}", kind.to_ascii_uppercase()));
    let headings: Vec<String> = kinds.chars().flat_map(named).collect();
    let title = format!("{} {name}", 1 << sizes.len());
    sheet(&title, &headings.join(" "), 240, |u, f| crossed(sizes, u, f % sizes.len()))
}

/// The whole table on these sheets.
fn growing(title: String, sheets: Vec<(usize, Sheet)>) -> Series {
    Series { title, entry: &entries::ALL[0], said: ("members", Trial::members), digits: 2, sheets }
}

/// Plots at one kind of design, then members of the three kinds at 240 plots.
pub fn series() -> [Series; 4] {
    let members = |kinds: &str, name: &str| {
        let sheets = SIZES.iter().map(|sizes| (1 << sizes.len(), by_members(sizes, kinds, name))).collect();
        growing(format!("{name}: crossed columns on 240 plots"), sheets)
    };
    let plots = growing(
        "plots: 3 rows crossed with 5 columns, filters by row, gains by column".to_string(),
        BY_PLOTS.into_iter().map(|plots| (plots, by_plots(plots))).collect(),
    );
    [plots, members("p", "plot members"), members("t", "treatment members"), members("pt", "plot and treatment members")]
}

/// The lines of a series for the data file: size, microseconds of the library and of the reference. Nothing where the two differ.
fn lines(series: &Series, limit: Duration) -> Option<String> {
    let line = |(size, [library, reference]): (usize, [f64; 2])| format!("{size}\t{library:.2}\t{reference:.2}\n");
    let measured: String = series.measure(limit)?.into_iter().map(line).collect();
    Some(format!("# {}\n# size\tlibrary\treference\n{measured}", series.title))
}

/// Prints the tables and writes the data file, from which growth.gp makes the picture; whether both agreed on every sheet.
pub fn tables(limit: Duration, file: &Path) -> io::Result<bool> {
    let measured: Option<Vec<String>> = series().iter().map(|series| lines(series, limit)).collect();
    let Some(blocks) = measured else { return Ok(false) };
    fs::write(file, format!("{HEADING}\n{}", blocks.join("\n\n")))?;
    Ok(true)
}
