//! The sheet of a formula. The text is read once, with a list that is open for each bracket.

use super::sheet::{name, put_number, put_titles};
use crate::{COLUMNS, FORMULA, PLOTS, SHEET};

/// Most names of a formula, two bytes each with a count of one digit.
const NAMES: usize = (FORMULA + 1) / "Aa=2*".len();
/// Most brackets around a name.
const DEPTH: usize = (FORMULA - "Aa=2".len()) / 2;

/// A list of items that is not ended.
#[derive(Clone, Copy)]
struct List {
    /// `/` or `*`, and 0 before the first.
    operator: u8,
    /// The number of names before it.
    first: usize,
    /// The names that its next item is nested in, a bit each.
    outer: u64,
}

/// What is read of a formula: its names in the order written, their counts, and the names that each is nested in.
struct Reading<'a> {
    text: &'a [u8],
    at: usize,
    count: usize,
    names: [&'a [u8]; NAMES],
    counts: [u8; NAMES],
    outer: [u64; NAMES],
    depth: usize,
    lists: [List; DEPTH + 1],
}

impl<'a> Reading<'a> {
    /// Question 17.
    fn of(text: &'a [u8]) -> Option<Reading<'a>> {
        let open = List { operator: 0, first: 0, outer: 0 };
        let mut reading = Reading {
            text,
            at: 0,
            count: 0,
            names: [&[]; NAMES],
            counts: [0; NAMES],
            outer: [0; NAMES],
            depth: 0,
            lists: [open; DEPTH + 1],
        };
        loop {
            reading.item()?;
            while reading.next() == Some(b')') {
                reading.depth = reading.depth.checked_sub(1)?;
                reading.at += 1;
            }
            match reading.next() {
                Some(operator) => reading.operator(operator)?,
                None => return (reading.depth == 0).then_some(reading),
            }
        }
    }

    fn next(&self) -> Option<u8> {
        self.text.get(self.at).copied()
    }

    /// The brackets that open before a name, the name and its count.
    fn item(&mut self) -> Option<()> {
        while self.next() == Some(b'(') {
            let outer = self.lists[self.depth].outer;
            self.depth += 1;
            *self.lists.get_mut(self.depth)? = List { operator: 0, first: self.count, outer };
            self.at += 1;
        }
        let name = name(&self.text[self.at..])?;
        self.at += name.len();
        if self.next() != Some(b'=') || self.names[..self.count].contains(&name) {
            return None;
        }
        self.names[self.count] = name;
        self.counts[self.count] = self.number()?;
        self.outer[self.count] = self.lists[self.depth].outer;
        self.count += 1;
        Some(())
    }

    /// The count after an equals sign.
    fn number(&mut self) -> Option<u8> {
        let digits = self.text[self.at + 1..].iter().take(4).take_while(|byte| byte.is_ascii_digit());
        let (length, value) = digits.fold((0, 0), |(length, value), byte| (length + 1, 10 * value + usize::from(byte - b'0')));
        let written = length == 1 + usize::from(value >= 10) + usize::from(value >= 100);
        self.at += 1 + length;
        (written && (2..=PLOTS).contains(&value)).then_some(value as u8)
    }

    /// The operator between two items of a list.
    fn operator(&mut self, operator: u8) -> Option<()> {
        let list = &mut self.lists[self.depth];
        let same = list.operator == 0 || list.operator == operator;
        if !same || operator != b'/' && operator != b'*' {
            return None;
        }
        list.operator = operator;
        if operator == b'/' {
            list.outer |= (1 << self.count) - (1 << list.first);
        }
        self.at += 1;
        Some(())
    }

    /// Question 18: the number of plots.
    fn plots(&self) -> Option<usize> {
        let within = (self.count <= COLUMNS).then(|| self.counts[..self.count].iter().map(|&count| usize::from(count)).product());
        within.filter(|&plots: &usize| plots <= PLOTS)
    }

    /// What each name's level gains, modulo 256, from a plot to the next, by the name whose number goes up there while all later numbers go
    /// back to 0. A level is 1 more than the numbers of the name and of those that it is nested in, read as digits: the plots run in the
    /// order of these digits, so that levels appear in it.
    fn gains(&self) -> [[u8; COLUMNS]; COLUMNS] {
        let mut gains = [[0u8; COLUMNS]; COLUMNS];
        for name in 0..self.count {
            let (mut weight, mut later) = (1u8, 0u8);
            for digit in (0..=name).rev().filter(|&digit| digit == name || self.outer[name] >> digit & 1 == 1) {
                gains[digit][name] = weight;
                weight = weight.wrapping_mul(self.counts[digit]);
            }
            for digit in (0..self.count).rev() {
                let gain = gains[digit][name];
                gains[digit][name] = gain.wrapping_sub(later);
                later = later.wrapping_add(gain.wrapping_mul(self.counts[digit] - 1));
            }
        }
        gains
    }

    /// The name whose number is one more at the next plot; all later ones are 0 again.
    fn step(&self, numbers: &mut [u8; COLUMNS]) -> usize {
        let mut name = self.count - 1;
        while name > 0 && numbers[name] + 1 == self.counts[name] {
            numbers[name] = 0;
            name -= 1;
        }
        numbers[name] += 1;
        name
    }

    /// The whole sheet; answers its length.
    fn write(&self, plots: usize, sheet: &mut [u8]) -> usize {
        let mut at = put_titles(sheet, self.names[..self.count].iter().map(|name| (b"p:", *name)));
        let (gains, mut levels, mut numbers) = (self.gains(), [1u8; COLUMNS], [0u8; COLUMNS]);
        for _ in 0..plots {
            for level in &levels[..self.count] {
                at = put_number(sheet, at, *level);
                sheet[at] = b'\t';
                at += 1;
            }
            sheet[at - 1] = b'\n';
            let gain = gains[self.step(&mut numbers)];
            levels.iter_mut().zip(gain).for_each(|(level, gain)| *level = level.wrapping_add(gain));
        }
        at
    }
}

/// The sheet of a formula into a lent buffer.
pub fn formula(text: &[u8], sheet: &mut [u8]) -> (u32, [u64; 1]) {
    if sheet.len() < SHEET {
        return (6, [0]);
    }
    let Some(reading) = (1..=FORMULA).contains(&text.len()).then(|| Reading::of(text)).flatten() else {
        return (17, [0]);
    };
    match reading.plots() {
        None => (18, [0]),
        Some(plots) => (0, [reading.write(plots, sheet) as u64]),
    }
}
