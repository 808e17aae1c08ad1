//! What the tests share: both implementations, sheets as text, and what the program prints.
#![allow(dead_code, unused_imports)]

pub use compare::memory::{family_buffer, level_table, members, pattern, pattern_levels};
use reference::{Entries, Level, Writer, FAST, LITERAL, SHEET, TABLE};

/// Both implementations: every fixed case is asked of each.
pub const BOTH: [Entries; 2] = [LITERAL, FAST];

/// A sheet with these columns; plot columns come first.
pub fn sheet(plot_columns: &[(&str, Vec<Level>)], treatment_columns: &[(&str, Vec<Level>)]) -> Vec<u8> {
    let headings = plot_columns.iter().map(|(name, _)| format!("p:{name}"));
    let headings: Vec<String> = headings.chain(treatment_columns.iter().map(|(name, _)| format!("t:{name}"))).collect();
    let columns: Vec<&Vec<Level>> = plot_columns.iter().chain(treatment_columns).map(|(_, column)| column).collect();
    let mut text = headings.join("\t") + "\n";
    for u in 0..columns.first().map_or(0, |column| column.len()) {
        let fields: Vec<String> = columns.iter().map(|column| column[u].to_string()).collect();
        text += &(fields.join("\t") + "\n");
    }
    text.into_bytes()
}

/// The program's output for a text.
pub fn output(entries: &Entries, text: &[u8]) -> String {
    let mut out = pattern(TABLE + 5);
    let untouched = out.clone();
    let (number, length) = (entries.skeleton)(text, &mut out);
    assert_eq!(number, 0, "{}", entries.title);
    let length = length as usize;
    assert_eq!(out[length..], untouched[length..], "{}: bytes past the text", entries.title);
    String::from_utf8(out[..length].to_vec()).expect("the table is ASCII")
}

/// What an entry that writes a sheet makes of a text: the refusal or the sheet. More than the least length is lent; bytes past the sheet,
/// and all after a refusal, are as before.
pub fn written(entry: Writer, text: &[u8]) -> Result<Vec<u8>, u32> {
    let mut sheet = pattern(SHEET + 7);
    let (refusal, [length]) = entry(text, &mut sheet);
    let length = length as usize;
    assert_eq!(sheet[length..], pattern(SHEET + 7)[length..], "bytes past the sheet");
    if refusal == 0 {
        assert!(length > 0, "no sheet and no refusal");
        return Ok(sheet[..length].to_vec());
    }
    assert_eq!(length, 0, "a length after a refusal");
    Err(refusal)
}

/// Expected lines: fields separated by blanks in the test, by one tab in the output.
pub fn lines(expected: &[&str]) -> String {
    expected.iter().map(|line| line.split(' ').collect::<Vec<_>>().join("\t") + "\n").collect()
}

/// Class numbers of a member.
pub fn classes(members: &[Vec<u8>]) -> Vec<u8> {
    members.iter().map(|member| member.iter().copied().max().unwrap_or(0)).collect()
}

/// A division of the plots into classes.
pub type Partition = Vec<u8>;

/// Every division of the plots, numbered by first appearance.
pub fn partitions(plots: usize) -> Vec<Partition> {
    let mut found = vec![vec![1]];
    for _ in 1..plots {
        let longer = |start: &Partition| -> Vec<Partition> {
            let most = start.iter().copied().max().unwrap_or(0);
            (1..=most + 1).map(|number| [&start[..], &[number]].concat()).collect()
        };
        found = found.iter().flat_map(longer).collect();
    }
    found
}
