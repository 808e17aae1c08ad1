//! Reads a text on standard input and prints what a program makes of it: `reference [--fast] [PROGRAM]`. Without a program's name a
//! trial sheet is read and its skeleton table printed; with `--fast` by the fast implementation.

use reference::{Entries, Writer, FAST, LITERAL, SHEET, TABLE, TEXT};
use std::io::{self, Read, Write};

/// From the text that is read to the text that is printed.
type Program = fn(&Entries, &[u8]) -> Vec<u8>;

/// The programs by name; the first is run where none is named.
const PROGRAMS: [(&str, Program); 3] = [("skeleton", skeleton), ("convert", convert), ("formula", formula)];

fn skeleton(entries: &Entries, text: &[u8]) -> Vec<u8> {
    let mut table = vec![0; TABLE];
    let (_, length) = (entries.skeleton)(text, &mut table);
    table.truncate(length as usize);
    table
}

/// The sheet that one numbered within parents is converted to.
fn convert(entries: &Entries, text: &[u8]) -> Vec<u8> {
    written_by(entries.convert, text)
}

/// The sheet of a formula. One line end after the formula is no part of it.
fn formula(entries: &Entries, text: &[u8]) -> Vec<u8> {
    written_by(entries.formula, text.strip_suffix(b"\n").unwrap_or(text))
}

/// The sheet that an entry writes from a text, or the line of its refusal.
fn written_by(entry: Writer, text: &[u8]) -> Vec<u8> {
    let mut sheet = vec![0; SHEET];
    let (refusal, [length]) = entry(text, &mut sheet);
    if refusal != 0 {
        return format!("refused\t{refusal}\t-\t-\n").into_bytes();
    }
    sheet.truncate(length as usize);
    sheet
}

/// Standard input to its end. Only one byte more than the longest text is kept: any text above it is refused alike.
fn input() -> io::Result<Vec<u8>> {
    let mut text = Vec::new();
    let mut input = io::stdin().lock();
    input.by_ref().take(TEXT as u64 + 1).read_to_end(&mut text)?;
    io::copy(&mut input, &mut io::sink())?;
    Ok(text)
}

fn main() -> io::Result<()> {
    let arguments: Vec<String> = std::env::args().skip(1).collect();
    let fast = arguments.first().is_some_and(|argument| argument == "--fast");
    let entries = if fast { FAST } else { LITERAL };
    let named = arguments.get(usize::from(fast)).map_or(PROGRAMS[0].0, String::as_str);
    let program = PROGRAMS.iter().find(|program| program.0 == named);
    let (_, run) = program.ok_or(io::Error::other(format!("no program {named}")))?;
    io::stdout().write_all(&run(&entries, &input()?))
}
