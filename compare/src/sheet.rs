//! Sheets made at random: whole ones, damaged ones, and scribbled bytes.

use crate::random::Random;
use crate::trial::{sharing_trial, trial_with_columns, Trial};
use reference::{Level, TEXT};

/// The names of a sheet's columns, in the order of the first line.
type Names = [&'static str; 12];

const NAMES: Names = ["Hut", "Pier", "Week", "Gain", "Cable", "Filter", "Aa", "A1", "Zz9", "Mule", "B2B", "Longestname1"];

/// Names as long as they can be.
pub const LONG_NAMES: Names = [
    "Longestname1", "Longestname2", "Longestname3", "Longestname4", "Longestname5", "Longestname6", "Longestname7", "Longestname8",
    "Longestname9", "Longestnam10", "Longestnam11", "Longestnam12",
];

/// A first line and the plot lines of a sheet, kinds in any order.
pub fn sheet_text(random: &mut Random, plots: usize, trial: &Trial) -> Vec<u8> {
    named_text(random, plots, trial, &NAMES)
}

/// The same with these names.
pub fn named_text(random: &mut Random, plots: usize, trial: &Trial, names: &Names) -> Vec<u8> {
    let mut fields: Vec<(char, &Vec<Level>)> = trial.columns[0].iter().map(|column| ('p', column)).collect();
    let mut at = 0;
    for column in &trial.columns[1] {
        // Treatment columns go anywhere among the others; each kind keeps its order.
        at += random.below(fields.len() + 1 - at);
        fields.insert(at, ('t', column));
        at += 1;
    }
    let heading: Vec<String> = fields.iter().zip(names).map(|(field, name)| format!("{}:{name}", field.0)).collect();
    let mut text = heading.join("\t") + "\n";
    for u in 0..plots {
        let line: Vec<String> = fields.iter().map(|(_, column)| column[u].to_string()).collect();
        text += &(line.join("\t") + "\n");
    }
    text.into_bytes()
}

/// Where the line that has this byte begins and where it ends, its byte 10 included.
fn line_at(text: &[u8], at: usize) -> std::ops::Range<usize> {
    let start = text[..at].iter().rposition(|&byte| byte == 10).map_or(0, |found| found + 1);
    let end = text[at..].iter().position(|&byte| byte == 10).map_or(text.len(), |found| at + found + 1);
    start..end
}

/// Damages a text now and then: a byte changed, added or taken away, a field replaced, a cut, lines doubled.
pub fn damage_text(random: &mut Random, text: &mut Vec<u8>) {
    if text.is_empty() || !random.once_in(4) {
        return;
    }
    let line = text.iter().position(|&byte| byte == 10).unwrap_or(0);
    let end = if random.once_in(2) { line + 1 } else { text.len() };
    let at = random.below(end);
    match random.below(14) {
        0 => text[at] = random.pick(b"\t\n01:ptA \r\0"),
        1 => text[at] = random.word() as u8,
        2 => { text.remove(at); }
        3 => text.insert(at, random.pick(b"\t\n0159:ptAz\xff")),
        4 => text.truncate(at),
        5 => { text.pop(); }
        6 => text.extend_from_slice(b"1\n"),
        7 => { let copy = text[line_at(text, at)].to_vec(); text.splice(at..at, copy); }
        8 => { let range = line_at(text, at); let copy = text[range.clone()].to_vec(); text.splice(range.end..range.end, copy); }
        9..=11 => replace_field(random, text, at),
        12 => text.clear(),
        _ => lengthen(random, text, line),
    }
}

/// Fields that are headings or nearly so.
const HEADINGS: [&str; 9] = ["", "-1", "p:Hut", "t:Hut", "p:A", "q:Hut", "p:Abcdefghijklm", "t:1a", "p:a_b"];
/// Fields that are levels or nearly so: ends of ranges, numbers that are 0 or 1 when they are cut, zeros and signs.
const LEVEL_FIELDS: [&str; 24] = [
    "", "0", "00", "01", "65535", "65536", "65537", "131073", "999999999", "1000000000", "4294967294", "4294967295", "4294967296",
    "4294967297", "8589934593", "9999999999", "10000000000", "04294967295", "18446744073709551615", "18446744073709551616",
    "18446744073709551617", "-1", "+1", "1\r",
];

/// Puts another field in the place of the one at this byte, mostly of the sort that its line has.
fn replace_field(random: &mut Random, text: &mut Vec<u8>, at: usize) {
    let parts = |byte: &u8| *byte == 9 || *byte == 10;
    let start = text[..at].iter().rposition(parts).map_or(0, |found| found + 1);
    let end = text[at..].iter().position(parts).map_or(text.len(), |found| at + found);
    let in_first_line = !text[..at].contains(&10);
    let field = match random.below(12) {
        0 => many_digits(random),
        1 => random.pick(&HEADINGS).to_string(),
        2 => random.pick(&LEVEL_FIELDS).to_string(),
        _ if in_first_line => random.pick(&HEADINGS).to_string(),
        _ => random.pick(&LEVEL_FIELDS).to_string(),
    };
    text.splice(start..end, field.into_bytes());
}

/// More digits than any level has, up to about as many as a text can have.
fn many_digits(random: &mut Random) -> String {
    let digits = random.pick(&["1", "9", "0", "4294967296"]);
    digits.repeat(random.pick(&[11usize, 20, 400, 32_000]).div_ceil(digits.len()))
}

/// Adds the plot lines again, so often that question 5 or question 2 may fail; now and then to the very limit of a text.
fn lengthen(random: &mut Random, text: &mut Vec<u8>, line: usize) {
    let copy = text[(line + 1).min(text.len())..].to_vec();
    if !copy.is_empty() && random.once_in(3) {
        return fill(text, &copy, TEXT - 1 + random.below(4));
    }
    for _ in 0..1 + random.below(40) {
        text.extend_from_slice(&copy);
    }
}

/// Adds these lines over and over until the text has so many bytes; the last one may be cut, but is ended.
pub fn fill(text: &mut Vec<u8>, lines: &[u8], wanted: usize) {
    while text.len() < wanted {
        text.extend_from_slice(lines);
    }
    text.truncate(wanted);
    text[wanted - 1] = 10;
}

/// Bytes from a small alphabet: texts near the form, of any length.
fn scribble(random: &mut Random) -> Vec<u8> {
    let alphabet = random.pick(&[&b"p:t:Aab1\t\n"[..], b"p:Aa\n1\n\t", b"01239\n\t", b"\x00\xff\n\tpt:A1"]);
    let length = random.pick(&[0, 1, 2, 3, 5, 8, 13, 40]);
    let start = random.pick(&[&b""[..], b"p:Aa\n", b"p:Aa\tt:Bb\n", b"t:A1\n1\n"]);
    let mut text = start.to_vec();
    text.extend((0..length).map(|_| random.pick(alphabet)));
    text
}

/// A sheet of a trial with members that are suprema of columns, now and then with long names.
pub fn sharing_text(random: &mut Random) -> Vec<u8> {
    let trial = sharing_trial(random);
    let names = if random.once_in(4) { LONG_NAMES } else { NAMES };
    named_text(random, trial.plots, &trial, &names)
}

/// A sheet, a damaged one, or scribbled bytes.
pub fn text(random: &mut Random) -> Vec<u8> {
    if random.once_in(4) {
        return scribble(random);
    }
    let trial = trial_with_columns(random);
    let mut text = sheet_text(random, trial.plots, &trial);
    damage_text(random, &mut text);
    text
}
