//! The relation of a family's members.

use super::order::{ones, within, Family};
use crate::MEMBERS;

/// The relation: its size, the words of coarser members, those of direct neighbours and their counts.
pub fn relation(family: &[u8], plots: usize, size: usize) -> (u32, [u32; 97]) {
    let mut answer = [0; 97];
    if !within(plots, family) {
        return (6, answer);
    }
    let Some(family) = Family::read(family, plots, size) else {
        return (15, answer);
    };
    let words = family.coarser();
    answer[0] = size as u32;
    for i in 0..size {
        let beyond = ones(words[i]).fold(0, |beyond, j| beyond | words[j]);
        let direct = words[i] & !beyond;
        answer[1 + i] = words[i];
        answer[1 + MEMBERS + i] = direct;
        answer[1 + 2 * MEMBERS + i] = direct.count_ones();
    }
    (0, answer)
}
