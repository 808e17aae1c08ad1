//! Degrees of freedom: questions 6 and 15.

use super::factor::Factor;
use super::family::{read, within_limits};
use crate::MEMBERS;

/// "Degrees of freedom of a member: its number of classes less those of all strictly coarser members of its family." Those
/// already worked out are kept in `known`.
fn degrees_of_member(members: &[Factor], i: usize, known: &mut [Option<i64>]) -> i64 {
    if let Some(degrees) = known[i] {
        return degrees;
    }
    let mut degrees = members[i].number_of_classes() as i64;
    for j in 0..members.len() {
        if members[i].is_strictly_finer(&members[j]) {
            degrees -= degrees_of_member(members, j, known);
        }
    }
    known[i] = Some(degrees);
    degrees
}

/// The degrees of freedom of all members.
pub fn degrees_of_family(members: &[Factor]) -> Vec<i64> {
    let mut known = vec![None; members.len()];
    (0..members.len()).map(|i| degrees_of_member(members, i, &mut known)).collect()
}

/// "numbers given for each member … are 0 past a family's size, and all 0 after a refusal."
pub fn degrees(family: &[u8], plots: usize, size: usize) -> (u32, [i64; 32]) {
    let mut answer = [0; MEMBERS];
    if !within_limits(plots, family) {
        return (6, answer);
    }
    let Some(members) = read(family, plots, size) else {
        return (15, answer);
    };
    let degrees = degrees_of_family(&members);
    answer[..degrees.len()].copy_from_slice(&degrees);
    (0, answer)
}
