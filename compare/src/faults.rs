//! Faults that entries which write a sheet from a text have in common, and what they do to a sheet's lines.

use reference::{Writer, SHEET};

/// What such an entry answers.
pub type Found = (u32, [u64; 1]);

/// The fields of each line.
pub type Lines = Vec<Vec<Vec<u8>>>;

/// The lines of a sheet as fields.
pub fn fields(text: &[u8]) -> Lines {
    let lines = text.split_inclusive(|&byte| byte == 10).map(|line| line.strip_suffix(b"\n").unwrap_or(line));
    lines.map(|line| line.split(|&byte| byte == 9).map(<[u8]>::to_vec).collect()).collect()
}

pub fn joined(lines: &[Vec<Vec<u8>>]) -> Vec<u8> {
    lines.iter().flat_map(|line| [line.join(&9), b"\n".to_vec()].concat()).collect()
}

/// The levels of each column numbered by first appearance.
pub fn renumber(lines: &mut Lines) {
    for column in 0..lines[0].len() {
        let mut seen: Vec<Vec<u8>> = Vec::new();
        for line in lines.iter_mut().skip(1) {
            let place = seen.iter().position(|level| *level == line[column]).unwrap_or(seen.len());
            if place == seen.len() {
                seen.push(line[column].clone());
            }
            line[column] = (place + 1).to_string().into_bytes();
        }
    }
}

/// What an entry writes for a text, with a change of its lines; those are never longer than a sheet can be.
pub fn with_lines(entry: Writer, text: &[u8], sheet: &mut [u8], change: impl Fn(&mut Lines)) -> Found {
    let mut after = sheet.to_vec();
    let found = entry(text, &mut after);
    if found.0 != 0 {
        return found;
    }
    let mut lines = fields(&after[..found.1[0] as usize]);
    change(&mut lines);
    let changed = joined(&lines);
    sheet[..changed.len()].copy_from_slice(&changed);
    (0, [changed.len() as u64])
}

/// What an entry answers to another text where it answers this number, 0 or a refusal, to one.
pub fn instead_of(number: u32, entry: Writer, text: &[u8], sheet: &mut [u8], other: impl Fn(&[u8]) -> Vec<u8>) -> Found {
    let taken = entry(text, &mut sheet.to_vec()).0 == number;
    entry(&if taken { other(text) } else { text.to_vec() }, sheet)
}

/// A byte written after a refusal.
pub fn written_after(number: u32, entry: Writer, text: &[u8], sheet: &mut [u8]) -> Found {
    let found = entry(text, sheet);
    if found.0 == number {
        sheet[0] = b'p';
    }
    found
}

/// A byte written past the sheet.
pub fn past_sheet(entry: Writer, text: &[u8], sheet: &mut [u8]) -> Found {
    let (number, [length]) = entry(text, sheet);
    if number == 0 {
        sheet[length as usize] = 0;
    }
    (number, [length])
}

/// A refusal of the text given before that of a short buffer.
pub fn before_6(number: u32, entry: Writer, text: &[u8], sheet: &mut [u8]) -> Found {
    match entry(text, sheet) {
        (6, _) if entry(text, &mut vec![0; SHEET]).0 == number => (number, [0]),
        found => found,
    }
}

/// A buffer taken that is one byte too short.
pub fn one_less(entry: Writer, text: &[u8], sheet: &mut [u8]) -> Found {
    if sheet.len() != SHEET - 1 {
        return entry(text, sheet);
    }
    let mut longer = [&sheet[..], &[0]].concat();
    let found = entry(text, &mut longer);
    sheet.copy_from_slice(&longer[..SHEET - 1]);
    found
}
