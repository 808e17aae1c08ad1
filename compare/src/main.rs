//! Compares the library of the proved planner with the second implementation, call by call and byte for byte.

use compare::call::Call;
use compare::case;
use compare::check::{affordable, check, Checked};
use compare::entries::{self, Entry, Fault, Told, FAULTS, LIBRARY};
use compare::shrink::shrink;
use reference::{Entries, QUESTIONS};
use std::path::{Path, PathBuf};
use std::process::ExitCode;

const USAGE: &str = "compare [--seed S] [--cases N] [--first INDEX] [--trace] [--one ENTRY INDEX] [--self-test]
  --cases N          so many calls of each entry; 0 for the kept cases alone
  --first INDEX      the index of the first one
  --trace            names each call before it is made, in case one does not return
  --one ENTRY INDEX  one call alone, written out
  --self-test        faults put into the library on purpose must be reported";

/// So many differences of an entry are shown, made smaller and written down; the others are counted.
const WRITTEN: u64 = 3;

/// What the command line asks for.
struct Asked {
    seed: u64,
    cases: u64,
    first: u64,
    trace: bool,
    one: Option<(&'static Entry, u64)>,
    self_test: bool,
}

/// How often each refusal was seen, 0 for none, or each number that an answer tells.
type Seen = [u64; QUESTIONS + 1];

/// How often an entry was called, with the literal version too, and with which refusals.
struct Tally {
    entry: &'static Entry,
    calls: u64,
    literal: u64,
    refusals: Seen,
    told: Seen,
    differences: u64,
}

impl Tally {
    fn new(entry: &'static Entry) -> Tally {
        let none = [0; QUESTIONS + 1];
        Tally { entry, calls: 0, literal: 0, refusals: none, told: none, differences: 0 }
    }

    fn count(&mut self, checked: &Checked) {
        self.calls += 1;
        self.literal += u64::from(checked.literal);
        self.differences += u64::from(checked.difference.is_some());
        self.refusals[(checked.outcome.refusal as usize).min(QUESTIONS)] += 1;
        if let Some(told) = self.entry.told.as_ref().filter(|_| checked.outcome.refusal == 0) {
            self.told[((told.of)(&checked.outcome) as usize).min(QUESTIONS)] += 1;
        }
    }
}

fn main() -> ExitCode {
    let arguments: Vec<String> = std::env::args().skip(1).collect();
    let asked = match asked(&arguments) {
        Ok(asked) => asked,
        Err(what) => {
            eprintln!("compare: {what}\n{USAGE}");
            return ExitCode::from(2);
        }
    };
    let passed = match asked.one {
        Some((entry, index)) => one(entry, asked.seed, index),
        None if asked.self_test => self_test(asked.seed),
        None if asked.cases == 0 => kept(),
        None => {
            let kept = kept();
            compare_all(&asked) && kept
        }
    };
    ExitCode::from(u8::from(!passed))
}

fn asked(arguments: &[String]) -> Result<Asked, String> {
    let mut asked = Asked { seed: 1, cases: 8000, first: 0, trace: false, one: None, self_test: false };
    let mut rest = arguments.iter();
    while let Some(option) = rest.next() {
        let mut next = || rest.next().ok_or(format!("nothing after {option}"));
        let number = |field: &String| field.parse::<u64>().map_err(|_| format!("no number: {field}"));
        match option.as_str() {
            "--seed" => asked.seed = number(next()?)?,
            "--cases" => asked.cases = number(next()?)?,
            "--first" => asked.first = number(next()?)?,
            "--trace" => asked.trace = true,
            "--one" => {
                let title = next()?;
                let entry = entries::titled(title).ok_or(format!("no entry {title}"))?;
                asked.one = Some((entry, number(next()?)?));
            }
            "--self-test" => asked.self_test = true,
            _ => return Err(format!("what is {option}?")),
        }
    }
    Ok(asked)
}

fn folder() -> PathBuf {
    Path::new(env!("CARGO_MANIFEST_DIR")).join("cases")
}

/// Runs the kept cases. Each must be read, answer what it says, and show no difference.
fn kept() -> bool {
    let files = std::fs::read_dir(folder()).into_iter().flatten().flatten().map(|entry| entry.path());
    let mut files: Vec<PathBuf> = files.filter(|path| path.extension().is_some_and(|end| end == "case")).collect();
    files.sort();
    let judged = |path: &PathBuf| -> Result<(), String> {
        let text = std::fs::read_to_string(path).map_err(|error| error.to_string())?;
        let case = case::read(&text)?;
        let checked = check(&case.call, &LIBRARY, true);
        checked.difference.or_else(|| case.unexpected(&checked.outcome)).map_or(Ok(()), Err)
    };
    let mut bad = 0;
    for path in &files {
        if let Err(what) = judged(path) {
            println!("{}: {what}", path.display());
            bad += 1;
        }
    }
    println!("compare: {} kept cases, {bad} bad", files.len());
    bad == 0 && !files.is_empty()
}

/// Compares so many calls of each entry, entry by entry, and prints what was seen.
fn compare_all(asked: &Asked) -> bool {
    println!("compare: seed {}, {} calls of each entry from index {} on", asked.seed, asked.cases, asked.first);
    let mut tallies: Vec<Tally> = entries::ALL.iter().map(|entry| Tally::new(entry)).collect();
    for tally in &mut tallies {
        for index in asked.first..asked.first.saturating_add(asked.cases) {
            if asked.trace {
                eprintln!("{} {index}", tally.entry.title);
            }
            let call = tally.entry.call(asked.seed, index);
            let checked = check(&call, &LIBRARY, affordable(&call, index));
            tally.count(&checked);
            if let Some(what) = checked.difference.filter(|_| tally.differences <= WRITTEN) {
                keep(&call, asked.seed, index, &what);
            }
        }
    }
    print_table(&tallies);
    all_reached(&tallies) && tallies.iter().all(|tally| tally.differences == 0)
}

/// Makes a call that showed a difference smaller and writes it beside the kept cases.
fn keep(call: &Call, seed: u64, index: u64, what: &str) {
    println!("{} {index}: {what}", call.entry.title);
    let smaller = smaller(call, &LIBRARY);
    let now = check(&smaller, &LIBRARY, true).difference.unwrap_or_default();
    let remarks = [format!("seed {seed}, index {index}: {what}"), format!("made smaller: {now}")];
    let path = folder().join(format!("{}-{seed}-{index}.case", call.entry.title));
    match std::fs::write(&path, case::write(&smaller, &remarks)) {
        Ok(()) => println!("  made smaller: {}", path.display()),
        Err(error) => println!("  not written: {}: {error}", path.display()),
    }
}

/// The smallest call found that still shows a difference. The literal version is asked only if the fast one shows none.
fn smaller(call: &Call, library: &Entries) -> Call {
    let literal = check(call, library, false).difference.is_none();
    shrink(call, &|call| check(call, library, literal).difference.is_some())
}

fn print_table(tallies: &[Tally]) {
    let row = |title: &str, calls: &str, literal: &str, cells: &[String]| {
        let cells: String = cells.iter().map(|cell| format!("{cell:>8}")).collect();
        println!("{title:<17}{calls:>9}{literal:>9}{cells}");
    };
    let numbers: Vec<usize> = (0..=QUESTIONS).filter(|&number| has_column(tallies, number)).collect();
    let shown = |times: u64| if times == 0 { ".".to_string() } else { times.to_string() };
    let cells = |seen: &Seen| numbers.iter().map(|&number| shown(seen[number])).collect::<Vec<String>>();
    row("refusal", "calls", "literal", &numbers.iter().map(usize::to_string).collect::<Vec<String>>());
    for tally in tallies {
        row(tally.entry.title, &tally.calls.to_string(), &tally.literal.to_string(), &cells(&tally.refusals));
        if let Some(told) = &tally.entry.told {
            row(&format!("  {}", told.title), "", "", &cells(&tally.told));
        }
    }
    let sum = |field: fn(&Tally) -> u64| tallies.iter().map(field).sum::<u64>();
    let (calls, literal, differences) = (sum(|tally| tally.calls), sum(|tally| tally.literal), sum(|tally| tally.differences));
    println!("compare: {calls} calls, {calls} with the fast version, {literal} with the literal one, {differences} differences");
}

/// Whether a refusal has a column in the table: 0 for none has, and those that an entry can give or that were seen.
fn has_column(tallies: &[Tally], number: usize) -> bool {
    let given = |tally: &Tally| tally.entry.refusals.contains(&(number as u32)) || tally.refusals[number] + tally.told[number] > 0;
    number == 0 || tallies.iter().any(given)
}

/// Whether each entry gave each refusal that it has, and its answers told all that they can tell.
fn all_reached(tallies: &[Tally]) -> bool {
    let missing = |title: &str, numbers: &[u32], seen: &Seen| {
        let missing: Vec<u32> = numbers.iter().copied().filter(|&number| seen[number as usize] == 0).collect();
        if !missing.is_empty() {
            println!("compare: {title} never gave {missing:?}");
        }
        !missing.is_empty()
    };
    let reached = |tally: &Tally| {
        let entry = tally.entry;
        let refused = missing(entry.title, entry.refusals, &tally.refusals);
        let untold = |told: &Told| missing(&format!("{} {}", entry.title, told.title), told.numbers, &tally.told);
        !entry.told.as_ref().is_some_and(untold) && !refused
    };
    let reached: Vec<bool> = tallies.iter().map(reached).collect();
    !reached.contains(&false)
}

/// One case alone, written out.
fn one(entry: &'static Entry, seed: u64, index: u64) -> bool {
    let call = entry.call(seed, index);
    let checked = check(&call, &LIBRARY, true);
    let what = checked.difference.clone().unwrap_or("no difference".to_string());
    print!("{}", case::write(&call, &[format!("seed {seed}, index {index}: {what}")]));
    let answer: Vec<String> = checked.outcome.answer.iter().map(i128::to_string).collect();
    println!("refusal {}\nanswer {}", checked.outcome.refusal, answer.join(" "));
    checked.difference.is_none()
}

/// Each fault must be found, and still be there in the smaller call after that was written and read again.
fn self_test(seed: u64) -> bool {
    let mut all = true;
    for (entry, faults) in FAULTS {
        if faults.is_empty() {
            println!("self-test: {}: FAILED: no fault", entry.title);
            all = false;
        }
        for fault in *faults {
            let result = found(entry, fault, seed);
            all &= result.is_ok();
            let what = result.unwrap_or_else(|what| format!("FAILED: {what}"));
            println!("self-test: {}, {}: {what}", entry.title, fault.title);
        }
    }
    all
}

/// Where a fault of an entry was found, in words.
fn found(entry: &'static Entry, fault: &Fault, seed: u64) -> Result<String, String> {
    let mut calls = (0..20_000).map(|index| (index, entry.call(seed, index)));
    let differs = |call: &Call| check(call, &fault.entries, false).difference;
    let (index, call) = calls.find(|(_, call)| differs(call).is_some()).ok_or("not found")?;
    let smaller = smaller(&call, &fault.entries);
    let again = case::read(&case::write(&smaller, &[]))?.call;
    if again != smaller {
        return Err("the written case is another one".to_string());
    }
    let what = differs(&again).ok_or("the smaller call shows no difference")?;
    let size = |call: &Call| case::write(call, &[]).len();
    Ok(format!("index {index}, made smaller from {} to {} bytes; {what}", size(&call), size(&again)))
}
