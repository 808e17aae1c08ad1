//! What the two designs share: their answer, a closed family, how it is written, and question 7.

use super::closing::{Members, Points};
use crate::{Level, MEMBERS, PLOTS};

/// What a design answers, with the numbers of classes of the families written.
#[derive(Clone, Copy, Default)]
pub struct Design {
    pub refusal: u32,
    pub first: usize,
    pub second: usize,
    pub plot_size: usize,
    pub treatment_size: usize,
    pub plot_classes: [u8; MEMBERS],
    pub treatment_classes: [u8; MEMBERS],
}

impl Design {
    pub fn refused(&mut self, refusal: u32, first: usize, second: usize) {
        (self.refusal, self.first, self.second) = (refusal, first, second);
    }
}

/// A closed family in order, without U and, of plots, without E.
pub struct Closed<'a> {
    pub points: Points,
    pub members: &'a mut Members,
    pub order: [u8; MEMBERS],
}

impl Closed<'_> {
    /// The index of the member at a place, from 0, among those here.
    pub fn at(&self, place: usize) -> usize {
        usize::from(self.order[place])
    }
}

/// Whether no used cell is missing (question 7).
pub fn no_level_missing(levels: &[Level], first: usize, count: usize, plots: usize) -> bool {
    (first..first + count).all(|c| !levels[PLOTS * c..PLOTS * c + plots].contains(&0))
}

/// Writes U, the members in order and, where wanted, E; answers the size.
pub fn write(points: &Points, members: &Members, order: &[u8; MEMBERS], equality: bool, plots: usize, family: &mut [u8]) -> usize {
    family[..plots].fill(1);
    let mut size = 1;
    for &i in &order[..members.count] {
        let at = PLOTS * size;
        points.expand(&members.columns[usize::from(i)], &mut family[at..at + plots]);
        size += 1;
    }
    if equality && plots > 1 {
        let at = PLOTS * size;
        for (u, number) in family[at..at + plots].iter_mut().enumerate() {
            *number = u as u8 + 1;
        }
        size += 1;
    }
    size
}

/// The numbers of classes of U, the members in order and, where wanted, E.
pub fn classes(members: &Members, order: &[u8; MEMBERS], equality: bool, plots: usize) -> [u8; MEMBERS] {
    let mut classes = [0; MEMBERS];
    classes[0] = 1;
    for (class, &i) in classes[1..].iter_mut().zip(&order[..members.count]) {
        *class = members.classes[usize::from(i)];
    }
    if equality && plots > 1 {
        classes[members.count + 1] = plots as u8;
    }
    classes
}
