//! The form of a sheet, questions 3 to 5, and the parts that a sheet is written of.

use super::name::put;
use crate::{Level, COLUMNS, LEVELS, PLOTS};

const LINE_END: u8 = 10;
const TAB: u8 = 9;

/// The first line: names in sheet order with their columns of the level table.
pub struct Header<'a> {
    pub fields: usize,
    names: [&'a [u8]; 2 * COLUMNS],
    pub columns: [u8; 2 * COLUMNS],
    pub plot_columns: usize,
    pub treatment_columns: usize,
    /// Where the plot lines begin.
    pub length: usize,
}

impl<'a> Header<'a> {
    const EMPTY: Header<'static> = Header {
        fields: 0,
        names: [&[]; 2 * COLUMNS],
        columns: [0; 2 * COLUMNS],
        plot_columns: 0,
        treatment_columns: 0,
        length: 0,
    };

    /// Question 3.
    pub fn read(text: &'a [u8]) -> Option<Header<'a>> {
        let mut header = Header::EMPTY;
        loop {
            let end = header.field(text)?;
            header.length = end + 1;
            match text[end] {
                TAB => {}
                LINE_END => return Some(header),
                _ => return None,
            }
        }
    }

    /// Question 3 of a sheet numbered within parents. For each field the name of its parent too, which is empty where it has none.
    pub fn read_old(text: &'a [u8]) -> Option<(Header<'a>, [&'a [u8]; 2 * COLUMNS])> {
        let (mut header, mut parents): (Header, [&[u8]; 2 * COLUMNS]) = (Header::EMPTY, [&[]; 2 * COLUMNS]);
        loop {
            let mut end = header.field(text)?;
            let last = header.fields - 1;
            if text[end] == b'/' && usize::from(header.columns[last]) < COLUMNS {
                parents[last] = name(&text[end + 1..])?;
                end += 1 + parents[last].len();
            }
            header.length = end + 1;
            match text[end] {
                TAB => {}
                LINE_END => return Some((header, parents)),
                _ => return None,
            }
        }
    }

    /// Takes the field that begins at `length`; answers where its name ends.
    #[inline]
    fn field(&mut self, text: &'a [u8]) -> Option<usize> {
        let rest = &text[self.length..];
        let name = name(rest.get(2..)?)?;
        if rest[1] != b':' {
            return None;
        }
        let (count, first) = match rest[0] {
            b'p' => (&mut self.plot_columns, 0),
            b't' => (&mut self.treatment_columns, COLUMNS),
            _ => return None,
        };
        if *count == COLUMNS || self.names[..self.fields].contains(&name) {
            return None;
        }
        self.names[self.fields] = name;
        self.columns[self.fields] = (first + *count) as u8;
        *count += 1;
        self.fields += 1;
        Some(self.length + 2 + name.len())
    }

    /// The name of a field.
    pub fn name(&self, field: usize) -> &'a [u8] {
        self.names[field]
    }

    /// The names of one kind in column order.
    pub fn names(&self, treatment: bool) -> [&'a [u8]; COLUMNS] {
        let mut found: [&[u8]; COLUMNS] = [&[]; COLUMNS];
        for (&column, name) in self.columns[..self.fields].iter().zip(self.names) {
            let column = usize::from(column);
            if (column >= COLUMNS) == treatment {
                found[column % COLUMNS] = name;
            }
        }
        found
    }

    /// Questions 4 and 5: the plot lines into a table of one's own; the number of plots, or the refusal.
    pub fn plot_lines(&self, text: &[u8], levels: &mut [Level; LEVELS]) -> Result<usize, u32> {
        let mut rest = &text[self.length..];
        let mut plots = 0;
        while !rest.is_empty() {
            for (field, &column) in self.columns[..self.fields].iter().enumerate() {
                let (level, length) = level(rest).ok_or(4u32)?;
                let end = if field + 1 == self.fields { LINE_END } else { TAB };
                if rest[length] != end {
                    return Err(4);
                }
                if plots < PLOTS {
                    levels[PLOTS * usize::from(column) + plots] = level;
                }
                rest = &rest[length + 1..];
            }
            plots += 1;
        }
        if (1..=PLOTS).contains(&plots) {
            Ok(plots)
        } else {
            Err(5)
        }
    }
}

/// A name at the beginning; a byte that no name has follows it.
#[inline]
pub fn name(text: &[u8]) -> Option<&[u8]> {
    let letters = text.iter().take(13).position(|byte| !byte.is_ascii_alphanumeric())?;
    ((2..=12).contains(&letters) && text[0].is_ascii_alphabetic()).then(|| &text[..letters])
}

/// Digits of the highest level.
const DIGITS: usize = Level::MAX.ilog10() as usize + 1;

/// A level at the beginning and its length; a byte that is no digit follows it.
#[inline]
fn level(text: &[u8]) -> Option<(Level, usize)> {
    let mut value = 0u64;
    for (i, byte) in text.iter().take(DIGITS + 1).enumerate() {
        let digit = byte.wrapping_sub(b'0');
        if digit > 9 {
            return if value == 0 { None } else { Level::try_from(value).ok().map(|value| (value, i)) };
        }
        if i == 0 && digit == 0 {
            return None;
        }
        value = 10 * value + u64::from(digit);
    }
    None
}

/// The first line from marks and names, at least one; answers its length.
pub fn put_titles<'a>(sheet: &mut [u8], titles: impl Iterator<Item = (&'static [u8; 2], &'a [u8])>) -> usize {
    let mut at = 0;
    for (mark, name) in titles {
        at = put(sheet, at, mark);
        at = put(sheet, at, name);
        at = put(sheet, at, &[TAB]);
    }
    sheet[at - 1] = LINE_END;
    at
}

/// A number below 256 in decimal.
#[inline]
pub fn put_number(sheet: &mut [u8], mut at: usize, number: u8) -> usize {
    for (least, power) in [(100, 100), (10, 10), (0, 1)] {
        if number >= least {
            sheet[at] = b'0' + number / power % 10;
            at += 1;
        }
    }
    at
}
