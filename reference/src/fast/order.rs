//! Families already made: how one is read, and the order of its members.

use super::column::{is_finer, leaders, Column};
use crate::{FAMILY, MEMBERS, PLOTS};

/// A family in a buffer, known to be in the numbering and order.
pub struct Family<'a> {
    pub buffer: &'a [u8],
    pub plots: usize,
    pub size: usize,
    pub classes: [u8; MEMBERS],
}

/// The number of classes of a column that is numbered by first appearance; None for any other.
#[inline]
fn numbered(column: &[u8]) -> Option<u8> {
    let mut classes = 0;
    for &class in column {
        if class.wrapping_sub(1) >= classes {
            if class != classes + 1 {
                return None;
            }
            classes = class;
        }
    }
    Some(classes)
}

impl<'a> Family<'a> {
    /// Question 15. The buffer's length and the plots have been judged by 6.
    pub fn read(buffer: &'a [u8], plots: usize, size: usize) -> Option<Family<'a>> {
        if !(1..=MEMBERS).contains(&size) {
            return None;
        }
        let mut family = Family { buffer, plots, size, classes: [0; MEMBERS] };
        for i in 0..size {
            let classes = numbered(family.column(i))?;
            family.classes[i] = classes;
            if i > 0 {
                let before = family.classes[i - 1];
                if classes < before || classes == before && family.column(i) <= family.column(i - 1) {
                    return None;
                }
            }
        }
        Some(family)
    }

    pub fn column(&self, i: usize) -> &'a [u8] {
        &self.buffer[PLOTS * i..PLOTS * i + self.plots]
    }

    /// For each member its strictly coarser ones.
    pub fn coarser(&self) -> [u32; MEMBERS] {
        let mut words = [0; MEMBERS];
        for i in 0..self.size {
            words[i] = self.coarser_word(i, &leaders(self.column(i)), &words);
        }
        words
    }

    /// The coarser members of one whose leaders are given, with the words of those before it. They have fewer classes, so
    /// they stand before it; what is coarser than one of them needs no look.
    pub fn coarser_word(&self, i: usize, leaders: &Column, words: &[u32; MEMBERS]) -> u32 {
        let mut word = 0;
        for j in (0..i).rev() {
            if word >> j & 1 == 0 && self.classes[j] < self.classes[i] && is_finer(leaders, self.column(j)) {
                word |= 1 << j | words[j];
            }
        }
        word
    }

    /// Degrees of freedom, from the words of coarser members.
    pub fn degrees(&self, coarser: &[u32; MEMBERS]) -> [i64; MEMBERS] {
        let mut degrees = [0; MEMBERS];
        for i in 0..self.size {
            let above: i64 = ones(coarser[i]).map(|j| degrees[j]).sum();
            degrees[i] = i64::from(self.classes[i]) - above;
        }
        degrees
    }
}

/// The places, from 0, of the bits that are set.
pub fn ones(mut word: u32) -> impl Iterator<Item = usize> {
    std::iter::from_fn(move || {
        if word == 0 {
            return None;
        }
        let place = word.trailing_zeros() as usize;
        word &= word - 1;
        Some(place)
    })
}

/// The first part of question 6 for a family already made.
pub fn within(plots: usize, buffer: &[u8]) -> bool {
    (1..=PLOTS).contains(&plots) && buffer.len() >= FAMILY
}
