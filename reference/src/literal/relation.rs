//! The relation of a family's members: questions 6 and 15.

use super::factor::Factor;
use super::family::{read, within_limits};
use crate::MEMBERS;

/// "bit j − 1 of member i's word is set when member j is strictly coarser"
fn coarser_word(members: &[Factor], i: usize) -> u32 {
    let mut word = 0;
    for (j, member) in members.iter().enumerate() {
        if members[i].is_strictly_finer(member) {
            word |= 1 << j;
        }
    }
    word
}

/// "A second word keeps only the neighbours directly above, with no member between"
fn cover_word(members: &[Factor], i: usize) -> u32 {
    let between = |j: usize| {
        members.iter().any(|h| members[i].is_strictly_finer(h) && h.is_strictly_finer(&members[j]))
    };
    let mut word = 0;
    for j in 0..members.len() {
        if members[i].is_strictly_finer(&members[j]) && !between(j) {
            word |= 1 << j;
        }
    }
    word
}

/// "The thirty-two words and the family's size travel together; words and counts past the size are 0, and after a refusal
/// all are, the size too."
pub fn relation(family: &[u8], plots: usize, size: usize) -> (u32, [u32; 97]) {
    let mut answer = [0; 97];
    if !within_limits(plots, family) {
        return (6, answer);
    }
    let Some(members) = read(family, plots, size) else {
        return (15, answer);
    };
    answer[0] = members.len() as u32;
    for i in 0..members.len() {
        let neighbours = cover_word(&members, i);
        answer[1 + i] = coarser_word(&members, i);
        answer[1 + MEMBERS + i] = neighbours;
        answer[1 + 2 * MEMBERS + i] = (0..MEMBERS).filter(|j| neighbours >> j & 1 == 1).count() as u32;
    }
    (0, answer)
}
