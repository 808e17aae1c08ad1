//! The form of a sheet: its lines, its fields and its headings (questions 2 and 3), and how a sheet is written.

use crate::{Level, COLUMNS, SHEET, TEXT};

const LINE_END: u8 = 10;
const TAB: u8 = 9;

/// Whether a column tells the plots' structure or what was done to them.
#[derive(Clone, Copy, Debug, PartialEq, Eq)]
pub enum Kind {
    Plot,
    Treatment,
}

/// One field of the first line: a kind and a name.
#[derive(Clone, Debug, PartialEq, Eq)]
pub struct Heading {
    pub kind: Kind,
    pub name: Vec<u8>,
}

/// "Is the text 1 to 32,768 bytes?" (question 2)
pub fn has_length(text: &[u8]) -> bool {
    (1..=TEXT).contains(&text.len())
}

/// "A sheet is lines of text, each ended by byte 10": the first line without its end and what follows it, or None if no
/// line is ended.
pub fn first_line(text: &[u8]) -> Option<(&[u8], &[u8])> {
    let end = text.iter().position(|&byte| byte == LINE_END)?;
    Some((&text[..end], &text[end + 1..]))
}

/// "fields parted by one tab (byte 9)"
pub fn fields(line: &[u8]) -> Vec<&[u8]> {
    line.split(|&byte| byte == TAB).collect()
}

/// "A name is a letter and then 1 to 11 letters or digits, all ASCII"
pub fn is_name(bytes: &[u8]) -> bool {
    let letter_first = bytes.first().is_some_and(|byte| byte.is_ascii_alphabetic());
    letter_first && (2..=12).contains(&bytes.len()) && bytes.iter().all(|byte| byte.is_ascii_alphanumeric())
}

/// "each `p:` (plot) or `t:` (treatment) and a name"
pub fn heading(field: &[u8]) -> Option<Heading> {
    let kind = match field.get(..2)? {
        b"p:" => Kind::Plot,
        b"t:" => Kind::Treatment,
        _ => return None,
    };
    is_name(&field[2..]).then(|| Heading { kind, name: field[2..].to_vec() })
}

/// "Does the first line have the form above?" (question 3) Its headings and what follows the line, or None.
pub fn headings(text: &[u8]) -> Option<(Vec<Heading>, &[u8])> {
    let (line, rest) = first_line(text)?;
    let found: Option<Vec<Heading>> = fields(line).into_iter().map(heading).collect();
    found.filter(|headings| stand_together(headings)).map(|headings| (headings, rest))
}

/// "The first line has 1 to 12 fields", "At most 6 are of one kind", "no two names are equal"
pub fn stand_together(headings: &[Heading]) -> bool {
    let few = (1..=2 * COLUMNS).contains(&headings.len());
    let few_of_a_kind = [Kind::Plot, Kind::Treatment].iter().all(|&kind| of_kind(headings, kind).len() <= COLUMNS);
    let differ = (0..headings.len()).all(|i| (0..i).all(|j| headings[i].name != headings[j].name));
    few && few_of_a_kind && differ
}

/// The names of the columns of one kind, in sheet order.
pub fn of_kind(headings: &[Heading], kind: Kind) -> Vec<&[u8]> {
    headings.iter().filter(|heading| heading.kind == kind).map(|heading| heading.name.as_slice()).collect()
}

/// The sheet with these headings and columns.
pub fn written(headings: &[Heading], columns: &[Vec<Level>]) -> Vec<u8> {
    let title = |heading: &Heading| {
        let mark: &[u8] = if heading.kind == Kind::Plot { b"p:" } else { b"t:" };
        [mark, &heading.name].concat()
    };
    let mut text = line(headings.iter().map(title).collect());
    for plot in 0..columns[0].len() {
        text.extend(line(columns.iter().map(|column| column[plot].to_string().into_bytes()).collect()));
    }
    text
}

/// "lines of text, each ended by byte 10, fields parted by one tab"
fn line(fields: Vec<Vec<u8>>) -> Vec<u8> {
    [fields.join(&TAB), vec![LINE_END]].concat()
}

/// A sheet, or its refusal, into a lent buffer that "must hold 32,768 bytes", which is asked first (question 6). "The length is answered;
/// bytes past it, and on a refusal all the output, are untouched."
pub fn lend(sheet: &mut [u8], made: impl FnOnce() -> Result<Vec<u8>, u32>) -> (u32, [u64; 1]) {
    if sheet.len() < SHEET {
        return (6, [0]);
    }
    match made() {
        Err(refusal) => (refusal, [0]),
        Ok(text) => {
            sheet[..text.len()].copy_from_slice(&text);
            (0, [text.len() as u64])
        }
    }
}
