//! Families: how they are closed, ordered, written into a buffer and read out of one.

use super::factor::Factor;
use crate::{FAMILY, MEMBERS, PLOTS};

/// Adds a factor that the list does not contain: "Equivalent columns merge."
pub fn add(members: &mut Vec<Factor>, factor: Factor) {
    if !members.iter().any(|member| member.is_equivalent(&factor)) {
        members.push(factor);
    }
}

/// "closed under both operations": rounds over all pairs until a round brings nothing new. None when the family's true size
/// is above 32, which is certain as soon as 33 inequivalent members are known.
pub fn close(start: Vec<Factor>, operations: &[fn(&Factor, &Factor) -> Factor]) -> Option<Vec<Factor>> {
    let mut members: Vec<Factor> = Vec::new();
    for factor in start {
        add(&mut members, factor);
    }
    loop {
        let before = members.clone();
        if before.len() > MEMBERS {
            return None;
        }
        for (i, f) in before.iter().enumerate() {
            for g in &before[i + 1..] {
                for operation in operations {
                    add(&mut members, operation(f, g));
                }
                if members.len() > MEMBERS {
                    return None;
                }
            }
        }
        if members.len() == before.len() {
            return Some(in_order(members));
        }
    }
}

/// "Members stand by ascending number of classes; ties by the first plot where the columns differ, smaller number first."
pub fn in_order(mut members: Vec<Factor>) -> Vec<Factor> {
    members.sort_by_key(place_key);
    members
}

fn place_key(member: &Factor) -> (usize, Vec<u8>) {
    (member.number_of_classes(), member.numbers())
}

/// "The plot family is the smallest set with the plot columns, U and E, closed under both operations." (question 8)
pub fn plot_family(columns: &[Factor], plots: usize) -> Option<Vec<Factor>> {
    let mut start = vec![Factor::universal(plots), Factor::equality(plots)];
    start.extend_from_slice(columns);
    close(start, &[Factor::infimum, Factor::supremum])
}

/// "The first treatment family is the smallest set with U and all infima of 1 to k different treatment columns, closed under
/// supremum." (question 11)
pub fn first_treatment_family(columns: &[Factor], plots: usize, k: usize) -> Option<Vec<Factor>> {
    let mut start = vec![Factor::universal(plots)];
    for chosen in 1u32..1 << columns.len() {
        if chosen.count_ones() as usize <= k {
            let picked = (0..columns.len()).filter(|c| chosen >> c & 1 == 1);
            let infimum = picked.fold(None, |so_far: Option<Factor>, c| {
                Some(so_far.map_or(columns[c].clone(), |f| f.infimum(&columns[c])))
            });
            start.extend(infimum);
        }
    }
    close(start, &[Factor::supremum])
}

/// "The final treatment family is all suprema of one plot member with one first-treatment member." (question 14)
pub fn final_treatment_family(plot_members: &[Factor], first_members: &[Factor]) -> Option<Vec<Factor>> {
    let mut members = Vec::new();
    for f in plot_members {
        for g in first_members {
            add(&mut members, f.supremum(g));
            if members.len() > MEMBERS {
                return None;
            }
        }
    }
    Some(in_order(members))
}

/// "Member i (from 1) has its N level numbers from byte 240 × (i − 1) on. … Bytes not used are not touched."
pub fn write(members: &[Factor], buffer: &mut [u8]) {
    for (i, member) in members.iter().enumerate() {
        let numbers = member.numbers();
        buffer[PLOTS * i..PLOTS * i + numbers.len()].copy_from_slice(&numbers);
    }
}

/// "Is each family 1 to 32 members in the numbering and order above, no two alike?" (question 15) The members, or None.
/// The buffer is long enough and the plots within limits: question 6 came before.
pub fn read(buffer: &[u8], plots: usize, size: usize) -> Option<Vec<Factor>> {
    if !(1..=MEMBERS).contains(&size) || buffer.len() < FAMILY {
        return None;
    }
    let columns = (0..size).map(|i| &buffer[PLOTS * i..PLOTS * i + plots]);
    let members: Vec<Factor> = columns.clone().map(Factor::of_labels).collect();
    let numbered = columns.zip(&members).all(|(column, member)| column == member.numbers());
    let ordered = members.windows(2).all(|pair| place_key(&pair[0]) < place_key(&pair[1]));
    (numbered && ordered).then_some(members)
}

/// The part of question 6 that these entries ask: the plot count and the buffer's length. "A family's size itself is judged
/// by 15."
pub fn within_limits(plots: usize, buffer: &[u8]) -> bool {
    (1..=PLOTS).contains(&plots) && buffer.len() >= FAMILY
}
