//! Times the proved library beside the reference's fast part: the same sheets, one process, turn by turn.

mod entries;
mod formulas;
mod growth;
mod numbering;
mod series;
mod sheets;
mod timing;

use compare::LIBRARY;
use entries::{Call, Entry, Trial};
use reference::{Entries, FAST, LITERAL};
use sheets::Sheet;
use std::{env, fs, io, path::Path, process::ExitCode, time::Duration};

const USAGE: &str = "usage: bench [--seconds S] [--only WORD] [--entries]   the table of sheets; with each entry by itself
       bench .. --literal ..                          the reference's literal version instead of the library
       bench [--seconds S] --folder FOLDER            the same of the files of a folder
       bench [--seconds S] --growth [FILE]            how time grows with plots and members
       bench [--seconds S] --numbering                how the time of numbering one column grows with plots
       bench [--seconds S] [--only WORD] --formulas   the table of formulas; --entries has it too
       bench --once SHEET library|reference [CALLS [ENTRY]]   one entry on one sheet or formula, a title or a file, so many times
       bench --instructions                           each sheet once by each, for bench/instructions.sh
       bench --write FOLDER                           the sheets as files, and as they are numbered within parents; the formulas";

/// The ratio that no sheet may pass.
const WORST: f64 = 1.3;

/// The two that are compared, the proved library first.
pub const PAIR: [&Entries; 2] = [&LIBRARY, &FAST];

/// The literal version beside the fast one.
const VERSIONS: [&Entries; 2] = [&LITERAL, &FAST];

/// What the command line asks for.
struct Wish {
    limit: Duration,
    only: String,
    entries: bool,
    pair: [&'static Entries; 2],
    task: Vec<String>,
}

/// The command line, or nothing where it has an unknown form.
fn wish(words: &[String]) -> Option<Wish> {
    let mut wish = Wish { limit: Duration::from_millis(300), only: String::new(), entries: false, pair: PAIR, task: Vec::new() };
    let mut rest = words.iter();
    while let Some(word) = rest.next() {
        match word.as_str() {
            "--seconds" => wish.limit = Duration::try_from_secs_f64(rest.next()?.parse().ok()?).ok()?,
            "--only" => wish.only = rest.next()?.clone(),
            "--entries" => wish.entries = true,
            "--literal" => wish.pair = VERSIONS,
            _ => {
                wish.task.push(word.clone());
                wish.task.extend(rest.by_ref().cloned());
            }
        }
    }
    Some(wish)
}

/// One line of the table; the ratio of the least times.
fn line(title: &str, trial: &Trial, entry: &Entry, wish: &Wish) -> f64 {
    let [first, second] = timing::alternate(wish.pair, entry, trial, wish.limit);
    let ratio = first.least / second.least;
    print!("{title:<38}{:>7}{:>7}  {:<11}", trial.text.len(), trial.plots, trial.members());
    print!("{:>10.2}{:>10.2}{:>10.2}{:>10.2}", first.least, second.least, first.median, second.median);
    println!("{ratio:>8.2}{}", if ratio > WORST { "  *" } else { "" });
    ratio
}

/// The table of one entry over the sheets; whether both agreed everywhere.
fn table(entry: &Entry, sheets: &[Sheet], wish: &Wish) -> bool {
    let names = if wish.pair[0].title == LIBRARY.title { ["library", "reference"] } else { ["literal", "fast"] };
    println!("\n{} (microseconds; * is above {WORST})", entry.title);
    print!("{:<38}{:>7}{:>7}  {:<11}", "sheet", "bytes", "plots", "members");
    println!("{:>10}{:>10}{:>10}{:>10}{:>8}", names[0], names[1], "median", "median", "ratio");
    let (mut ratios, mut agreed) = (Vec::new(), true);
    for sheet in sheets {
        let trial = Trial::new(sheet);
        if timing::same(wish.pair, entry, &trial) {
            ratios.push((line(&sheet.title, &trial, entry, wish), &sheet.title));
        } else {
            agreed = false;
            println!("{:<38}  THE TWO DIFFER", sheet.title);
        }
    }
    let logs: f64 = ratios.iter().map(|(ratio, _)| ratio.ln()).sum();
    let worst = ratios.iter().max_by(|a, b| a.0.total_cmp(&b.0));
    if let Some((ratio, title)) = worst {
        let above = ratios.iter().filter(|(ratio, _)| *ratio > WORST).count();
        let mean = (logs / ratios.len() as f64).exp();
        println!("{}: geometric mean {mean:.3}, worst {ratio:.2} ({title}), above {WORST}: {above} of {}", entry.title, ratios.len());
    }
    agreed
}

fn tables(wish: &Wish, entries: &[Entry], mut sheets: Vec<Sheet>) -> bool {
    sheets.retain(|sheet| sheet.title.contains(&wish.only));
    let agreed: Vec<bool> = entries.iter().map(|entry| table(entry, &sheets, wish)).collect();
    !agreed.contains(&false)
}

/// The entries that are timed on sheets.
fn on_sheets(wish: &Wish) -> &'static [Entry] {
    if wish.entries { entries::ALL } else { &entries::ALL[..1] }
}

fn on_formulas(wish: &Wish) -> bool {
    tables(wish, &[entries::FORMULA], formulas::all())
}

/// What callgrind counts: it is told this name.
#[no_mangle]
#[inline(never)]
extern "C" fn measured_calls(call: &mut Call, library: bool, calls: u32) {
    timing::repeat(PAIR[usize::from(!library)], call, calls);
}

/// A sheet or a formula by its title or its file.
fn find(name: &str) -> io::Result<Sheet> {
    let known = sheets::all()?.into_iter().chain(formulas::all()).find(|sheet| sheet.title == name);
    known.map_or_else(|| sheets::from_file(Path::new(name)), Ok)
}

fn once(name: &str, who: &str, calls: &str, entry: &str) -> io::Result<bool> {
    let calls = calls.parse().map_err(io::Error::other)?;
    let entry = entries::titled(entry).ok_or(io::Error::other(USAGE))?;
    let mut call = (entry.call)(&Trial::new(&find(name)?));
    measured_calls(&mut call, who == "library", calls);
    Ok(who == "library" || who == "reference")
}

/// Each sheet by each, after a call that is not measured: loading is done by then.
fn instructions() -> io::Result<bool> {
    let growing = growth::series().into_iter().flat_map(|series| series.sheets).map(|(_, sheet)| sheet);
    for sheet in sheets::all()?.into_iter().chain(growing) {
        let trial = Trial::new(&sheet);
        println!("{}\t{}\t{}\t{}", sheet.title, trial.text.len(), trial.plots, trial.members());
        let mut call = (entries::ALL[0].call)(&trial);
        for library in [true, false] {
            timing::repeat(PAIR[usize::from(!library)], &mut call, 1);
            measured_calls(&mut call, library, 1);
        }
    }
    Ok(true)
}

/// The sheets as files whose names are the titles; where parents can be given to its columns, each with these too. Then the formulas.
fn write(folder: &str) -> io::Result<bool> {
    fs::create_dir_all(folder)?;
    let file = |sheet: &Sheet, ending: &str| {
        let name: String = sheet.title.chars().map(|c| if c.is_ascii_alphanumeric() { c } else { '-' }).collect();
        Path::new(folder).join(name + ending)
    };
    for sheet in sheets::all()? {
        fs::write(file(&sheet, ".sheet"), &sheet.text)?;
        let old = sheets::with_parents(&sheet.text);
        if old != sheet.text {
            fs::write(file(&sheet, ".old"), old)?;
        }
    }
    formulas::all().iter().try_for_each(|formula| fs::write(file(formula, ".formula"), &formula.text))?;
    Ok(true)
}

fn perform(wish: &Wish) -> io::Result<bool> {
    let words: Vec<&str> = wish.task.iter().map(String::as_str).collect();
    match words[..] {
        [] => {
            let agreed = tables(wish, on_sheets(wish), sheets::all()?);
            Ok((!wish.entries || on_formulas(wish)) && agreed)
        }
        ["--folder", folder] => Ok(tables(wish, on_sheets(wish), sheets::folder(Path::new(folder), "")?)),
        ["--formulas"] => Ok(on_formulas(wish)),
        ["--growth"] => growth::tables(wish.limit, Path::new(concat!(env!("CARGO_MANIFEST_DIR"), "/growth.tsv"))),
        ["--growth", file] => growth::tables(wish.limit, Path::new(file)),
        ["--numbering"] => Ok(numbering::tables(wish.limit)),
        ["--once", name, who] => once(name, who, "1", entries::ALL[0].title),
        ["--once", name, who, calls] => once(name, who, calls, entries::ALL[0].title),
        ["--once", name, who, calls, entry] => once(name, who, calls, entry),
        ["--instructions"] => instructions(),
        ["--write", folder] => write(folder),
        _ => Err(io::Error::other(USAGE)),
    }
}

fn main() -> ExitCode {
    let words: Vec<String> = env::args().skip(1).collect();
    let done = wish(&words).map_or_else(|| Err(io::Error::other(USAGE)), |wish| perform(&wish));
    match done {
        Ok(true) => ExitCode::SUCCESS,
        Ok(false) => ExitCode::FAILURE,
        Err(error) => {
            eprintln!("bench: {error}");
            ExitCode::FAILURE
        }
    }
}
