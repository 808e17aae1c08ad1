//! A call as a text that can be read, kept and run again.
//!
//! Each line has a word and what belongs to it. `text "..."` adds to the sheet, so often as a number after it says. `levels LENGTH`
//! and `family PLACE LENGTH` begin a table of zeros, and `at OFFSET: ...` fills cells of the last one: `7` is a number, `1,2x3` is
//! 1 2 1 2 1 2. A line that begins with `#` is a remark. `refusal`, `answer` and `written` say what is expected; `written` is a text, as
//! `text` is. The words of counts, texts and tables are those of [`Call::counts`], [`Call::texts`] and [`Call::tables`].

use crate::call::{Call, Outcome};
use crate::cells::number;
use crate::entries;
use crate::memory::GUARD;

/// A kept call and, if known, what it must answer: the refusal, the first numbers, and the first bytes of the first buffer.
pub struct Case {
    pub call: Call,
    pub refusal: Option<u32>,
    pub answer: Vec<i128>,
    pub written: Vec<u8>,
}

impl Case {
    /// Where an outcome is not the expected one.
    pub fn unexpected(&self, outcome: &Outcome) -> Option<String> {
        if self.refusal.is_some_and(|number| number != outcome.refusal) {
            return Some(format!("refusal {} is not the expected one", outcome.refusal));
        }
        if !outcome.answer.starts_with(&self.answer) {
            return Some(format!("answer {:?} is not the expected one", &outcome.answer[..self.answer.len().min(outcome.answer.len())]));
        }
        let bytes = outcome.bytes.first().map_or(&[][..], |bytes| &bytes[GUARD..]);
        let found = &bytes[..self.written.len().min(bytes.len())];
        (found != self.written).then(|| format!("{} is not the expected text", found.escape_ascii()))
    }
}

/// Writes a call as a text.
pub fn write(call: &Call, remarks: &[String]) -> String {
    let mut call = call.clone();
    let mut text: String = remarks.iter().map(|remark| format!("# {remark}\n")).collect();
    text += &format!("entry {}\n", call.entry.title);
    for (word, numbers) in call.counts().iter().filter(|(_, numbers)| numbers.iter().any(|&number| number != 0)) {
        let numbers: Vec<String> = numbers.iter().map(usize::to_string).collect();
        text += &format!("{word} {}\n", numbers.join(" "));
    }
    for (word, bytes) in call.texts() {
        text += &write_text(word, bytes);
    }
    for (word, table) in call.tables().iter().filter(|(_, table)| table.length() > 0) {
        text += &format!("{word} {}\n{}", table.length(), table.written());
    }
    text
}

/// A text's lines, each in quotes; equal ones that follow each other are counted.
fn write_text(word: &str, text: &[u8]) -> String {
    let lines: Vec<&[u8]> = text.split_inclusive(|&byte| byte == 10).collect();
    let runs = lines.chunk_by(|a, b| a == b);
    let line = |run: &[&[u8]]| format!("{word} \"{}\" {}\n", run[0].escape_ascii(), run.len());
    runs.map(line).collect()
}

/// Reads a kept case.
pub fn read(text: &str) -> Result<Case, String> {
    let mut case = Case { call: Call::default(), refusal: None, answer: Vec::new(), written: Vec::new() };
    let mut table = String::new();
    for (i, line) in text.lines().enumerate().filter(|(_, line)| !line.is_empty() && !line.starts_with('#')) {
        read_line(&mut case, &mut table, line).map_err(|what| format!("line {}: {what}", i + 1))?;
    }
    Ok(case)
}

/// Takes one line into the case. `at` fills the table that was begun last.
fn read_line(case: &mut Case, last: &mut String, line: &str) -> Result<(), String> {
    let (word, rest) = line.split_once(' ').ok_or("a word alone")?;
    let call = &mut case.call;
    match word {
        "entry" => call.entry = entries::titled(rest).ok_or(format!("no entry {rest}"))?,
        "refusal" => case.refusal = Some(number(rest)?),
        "answer" => case.answer = numbers(rest)?,
        "written" => case.written.extend(read_text(rest)?),
        "at" => {
            let (offset, list) = rest.split_once(": ").ok_or("no offset")?;
            let mut tables = call.tables();
            let table = tables.iter_mut().find(|table| table.0 == last).ok_or("no table was begun")?;
            table.1.fill(number(offset)?, list)?;
        }
        _ => read_part(call, last, line)?,
    }
    Ok(())
}

/// Takes one line of a count, a text or a table's beginning into the call.
fn read_part(call: &mut Call, last: &mut String, line: &str) -> Result<(), String> {
    let (word, rest) = line.split_once(' ').unwrap_or((line, ""));
    if let Some((_, counts)) = call.counts().into_iter().find(|count| count.0 == word) {
        let found: Vec<usize> = numbers(rest)?;
        if found.len() != counts.len() {
            return Err(format!("not {} numbers: {rest}", counts.len()));
        }
        counts.copy_from_slice(&found);
        return Ok(());
    }
    if let Some((_, text)) = call.texts().into_iter().find(|text| text.0 == word) {
        text.extend(read_text(rest)?);
        return Ok(());
    }
    let (word, length) = line.rsplit_once(' ').unwrap_or((line, ""));
    let (word, table) = call.tables().into_iter().find(|table| table.0 == word).ok_or(format!("no word {word}"))?;
    table.begin(number(length)?);
    *last = word.to_string();
    Ok(())
}

/// Numbers separated by blanks.
fn numbers<T: std::str::FromStr>(rest: &str) -> Result<Vec<T>, String> {
    rest.split(' ').map(number).collect()
}

/// `"..." COUNT`, with the escapes of Rust's byte strings.
fn read_text(rest: &str) -> Result<Vec<u8>, String> {
    let (quoted, count) = rest.rsplit_once(' ').ok_or("no count after the text")?;
    let inner = quoted.strip_prefix('"').and_then(|inner| inner.strip_suffix('"')).ok_or("the text is not in quotes")?;
    let mut line = Vec::new();
    let mut bytes = inner.bytes();
    while let Some(byte) = bytes.next() {
        line.push(if byte == b'\\' { escaped(&mut bytes)? } else { byte });
    }
    Ok(line.repeat(number(count)?))
}

fn escaped(bytes: &mut std::str::Bytes) -> Result<u8, String> {
    let mut next = || bytes.next().ok_or("an escape is cut off".to_string());
    match next()? {
        b't' => Ok(9),
        b'n' => Ok(10),
        b'r' => Ok(13),
        b'x' => {
            let digits = [next()?, next()?];
            let digits = std::str::from_utf8(&digits).map_err(|_| "no digits".to_string())?;
            u8::from_str_radix(digits, 16).map_err(|_| format!("no byte {digits}"))
        }
        other => Ok(other),
    }
}
