//! What the reference prints for a sheet or a formula, and the fault that can be planted.

use reference::{Writer, FAST, LITERAL, SHEET, TABLE};

/// Longest text that is also given to the literal part, which takes long on large sheets.
const SMALL: usize = 256;

/// The printed text of a sheet. Both parts of the reference have to agree on small ones.
pub fn printed(text: &[u8]) -> Vec<u8> {
    let mut out = vec![0; TABLE];
    let (_, length) = (FAST.skeleton)(text, &mut out);
    out.truncate(length as usize);
    if text.len() <= SMALL {
        let mut literal = vec![0; TABLE];
        let (_, length) = (LITERAL.skeleton)(text, &mut literal);
        assert_eq!(out, literal[..length as usize], "the two parts of the reference differ");
    }
    out
}

/// The sheet that a text is converted to, or the line of its refusal.
pub fn converted(text: &[u8]) -> Vec<u8> {
    written(text, [FAST.convert, LITERAL.convert])
}

/// The sheet of a formula, or the line of its refusal. One line end after the formula is no part of it.
pub fn from_formula(text: &[u8]) -> Vec<u8> {
    written(text.strip_suffix(b"\n").unwrap_or(text), [FAST.formula, LITERAL.formula])
}

/// The sheet that an entry writes from a text, or the line of its refusal. Both parts have to agree on small texts.
fn written(text: &[u8], [fast, literal]: [Writer; 2]) -> Vec<u8> {
    let by = |entry: Writer| {
        let mut sheet = vec![0; SHEET];
        let (number, [length]) = entry(text, &mut sheet);
        sheet.truncate(length as usize);
        if number == 0 { sheet } else { format!("refused\t{number}\t-\t-\n").into_bytes() }
    };
    let out = by(fast);
    if text.len() <= SMALL {
        assert_eq!(out, by(literal), "the two parts of the reference differ");
    }
    out
}

/// What the program that FUZZ_PRINTS names prints, `skeleton`, `convert` or `formula`.
pub fn of_program() -> fn(&[u8]) -> Vec<u8> {
    match std::env::var("FUZZ_PRINTS").as_deref() {
        Ok("convert") => converted,
        Ok("formula") => from_formula,
        _ => printed,
    }
}

/// A fault for trying out the fuzzer: where the printed text has the words of FUZZ_FAULT, one bit of it is turned.
pub fn plant(out: &mut [u8], length: usize) {
    let Ok(words) = std::env::var("FUZZ_FAULT") else { return };
    let words = words.replace("\\t", "\t");
    let length = length.min(out.len());
    let found = out[..length].windows(words.len().max(1)).any(|part| part == words.as_bytes());
    if found {
        out[length - 1] ^= 1;
    }
}
