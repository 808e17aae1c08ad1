//! Random comparison of the fast implementation with the literal one: answers and lent memory, byte for byte. And the kept cases.
//!
//! The seed is printed; `REFERENCE_SEED` sets it, `REFERENCE_CASES` the number of cases of each entry and `REFERENCE_FIRST` the
//! index of the first one. `REFERENCE_ENTRY` names one entry alone.

use compare::call::Outcome;
use compare::case;
use compare::entries::{Entry, ALL};
use compare::memory::GUARD;
use reference::{FAST, LITERAL};
use std::collections::BTreeMap;

/// A number that the environment may set.
fn setting(name: &str, default: u64) -> u64 {
    std::env::var(name).ok().and_then(|value| value.parse().ok()).unwrap_or(default)
}

/// Compares the two on the cases of an entry. Each refusal must occur, unless the environment asks for fewer cases.
fn agree(entry: &'static Entry) {
    let (seed, first) = (setting("REFERENCE_SEED", 20_080_101), setting("REFERENCE_FIRST", 0));
    let count = setting("REFERENCE_CASES", entry.calls);
    let (mut seen, mut told, mut suprema) = (BTreeMap::new(), BTreeMap::new(), 0);
    for index in first..first.saturating_add(count) {
        let call = entry.call(seed, index);
        let found = (entry.run)(&call, &FAST);
        if let Some(difference) = found.difference(&(entry.run)(&call, &LITERAL)) {
            let alone = format!("REFERENCE_ENTRY={} REFERENCE_SEED={seed} REFERENCE_FIRST={index} REFERENCE_CASES=1", entry.title);
            panic!("{}: {difference}; alone: {alone}", entry.title);
        }
        *seen.entry(found.refusal).or_insert(0) += 1;
        if let Some(by) = entry.told.as_ref().filter(|_| found.refusal == 0) {
            *told.entry((by.of)(&found)).or_insert(0) += 1;
        }
        suprema += u64::from(names(entry) && found.refusal == 0 && has_supremum(&found));
    }
    let with = if names(entry) { format!(", {suprema} with a supremum named") } else { String::new() };
    println!("{}: seed {seed}, {count} cases, by refusal {seen:?}{}{with}", entry.title, more(entry, &told));
    if count >= entry.calls {
        assert!(entry.refusals.iter().all(|number| seen.contains_key(number)), "{}: each refusal occurs: {seen:?}", entry.title);
        let numbers = entry.told.as_ref().map_or(&[][..], |by| by.numbers);
        assert!(numbers.iter().all(|number| told.contains_key(number)), "{}: each number is told: {told:?}", entry.title);
        assert!(!names(entry) || suprema > count / 20, "{}: suprema are named often: {suprema}", entry.title);
    }
}

/// Whether an entry writes names.
fn names(entry: &Entry) -> bool {
    matches!(entry.title, "name" | "skeleton")
}

/// Whether `S(` stands in what was written.
fn has_supremum(found: &Outcome) -> bool {
    found.bytes[0][GUARD..GUARD + found.answer[0] as usize].windows(2).any(|pair| pair == b"S(")
}

/// What the answers tell.
fn more(entry: &Entry, told: &BTreeMap<u32, u64>) -> String {
    entry.told.as_ref().map_or(String::new(), |by| format!(", {} {told:?}", by.title))
}

/// The kept cases of the comparison: each is answered as it says, by both.
#[test]
fn both_answer_the_kept_cases() {
    let folder = concat!(env!("CARGO_MANIFEST_DIR"), "/../compare/cases");
    let mut count = 0;
    for file in std::fs::read_dir(folder).expect("a folder of cases") {
        let path = file.expect("a file").path();
        let text = std::fs::read_to_string(&path).expect("a text");
        let case = case::read(&text).unwrap_or_else(|what| panic!("{}: {what}", path.display()));
        for entries in [&FAST, &LITERAL] {
            let unexpected = case.unexpected(&(case.call.entry.run)(&case.call, entries));
            assert_eq!(unexpected, None, "{}: {}", path.display(), entries.title);
        }
        count += 1;
    }
    assert!(count > 0, "no case");
}

#[test]
fn both_agree_on_every_entry() {
    let wanted = std::env::var("REFERENCE_ENTRY").ok();
    let asked = |entry: &&&'static Entry| wanted.as_ref().is_none_or(|title| title == entry.title);
    let entries: Vec<&'static Entry> = ALL.iter().filter(asked).copied().collect();
    assert!(!entries.is_empty(), "no entry of this name");
    std::thread::scope(|scope| {
        let running: Vec<_> = entries.into_iter().map(|entry| scope.spawn(move || agree(entry))).collect();
        let failed = running.into_iter().filter_map(|one| one.join().err()).count();
        assert_eq!(failed, 0, "entries on which the two differ");
    });
}
