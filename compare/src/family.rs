//! Families made at random: by a design, in part, with random members, damaged.

use crate::call::Call;
use crate::entries::Entry;
use crate::memory::family_buffer;
use crate::names::{infimum, supremum};
use crate::random::Random;
use crate::trial::{trial, Trial};
use reference::{Level, PLOTS};
use std::collections::BTreeMap;

/// Numbered by first appearance.
pub fn numbered<T: Ord>(labels: &[T]) -> Vec<u8> {
    let mut seen = BTreeMap::new();
    let mut next = 0;
    labels.iter().map(|label| *seen.entry(label).or_insert_with(|| { next += 1; next })).collect()
}

/// A family for the entries that take one: made by a design, a part of one, or with random members; in order, now and then of more
/// members than there may be.
fn family(random: &mut Random) -> (usize, Vec<Vec<u8>>) {
    let trial = trial(random);
    let plots = trial.plots;
    let [mut found, treatments] = trial.families();
    if random.once_in(3) {
        found = treatments;
    }
    if random.once_in(3) {
        found.retain(|_| !random.once_in(4));
    }
    if random.once_in(4) {
        let classes = 1 + random.below(plots.min(5));
        for _ in 0..random.below(40) {
            found.push(numbered(&(0..plots).map(|_| random.below(classes)).collect::<Vec<usize>>()));
        }
    }
    in_order(&mut found);
    found.truncate(if random.once_in(10) { 34 } else { 32 });
    if found.is_empty() {
        found.push(vec![1; plots]);
    }
    (plots, found)
}

/// A family of suprema and infima of the columns that its members look at, or of any, and of others near them; in order and mostly not
/// closed.
pub fn of_columns(random: &mut Random, trial: &Trial, kind: usize) -> Vec<Vec<u8>> {
    let all = trial.columns.concat();
    let looked = if kind == 0 && !trial.columns[0].is_empty() { &trial.columns[0] } else { &all };
    let mut found: Vec<Vec<u8>> = Vec::new();
    for _ in 0..16 {
        let from = if random.once_in(4) { &all } else { looked };
        let some: Vec<&[Level]> = (0..random.pick(&[1, 2, 2, 2, 3, 3, 4])).map(|_| from[random.below(from.len())].as_slice()).collect();
        let mut labels = if random.once_in(4) { infimum(&some, trial.plots) } else { supremum(&some, trial.plots, false) };
        if random.once_in(6) {
            // Two classes become one, or a plot a class of its own.
            let [from, to] = [0, 1].map(|_| labels[random.below(trial.plots)]);
            match random.below(2) {
                0 => labels.iter_mut().filter(|label| **label == from).for_each(|label| *label = to),
                _ => labels[random.below(trial.plots)] = trial.plots,
            }
        }
        found.push(numbered(&labels));
    }
    // Most of those that have a name by an earlier rule are left out: U, E and columns.
    let columns: Vec<Vec<u8>> = trial.columns[kind].iter().map(|column| numbered(column)).collect();
    let classes = |member: &Vec<u8>| member.iter().copied().max().map_or(0, usize::from);
    let plain = |member: &Vec<u8>| [1, trial.plots].contains(&classes(member)) || columns.contains(member);
    found.retain(|member| !plain(member) || random.once_in(8));
    found.truncate(1 + random.below(12));
    in_order(&mut found);
    if found.is_empty() { vec![vec![1; trial.plots]] } else { found }
}

/// By number of classes, then by the first plot where two differ; none twice.
pub fn in_order(members: &mut Vec<Vec<u8>>) {
    members.sort_by_key(|member| (member.iter().copied().max(), member.clone()));
    members.dedup();
}

/// Damages a family now and then: a number changed, two members exchanged, all of them permuted, one twice.
pub fn damage(random: &mut Random, plots: usize, size: usize, buffer: &mut [u8]) {
    let (i, j, u) = (random.below(size), random.below(size), random.below(plots));
    match random.below(30) {
        0 => buffer[PLOTS * i + u] = random.below(6) as u8,
        1 => buffer[PLOTS * i + u] ^= 1 << random.below(8),
        2 => (0..plots).for_each(|u| buffer.swap(PLOTS * i + u, PLOTS * j + u)),
        3 => buffer.copy_within(PLOTS * i..PLOTS * i + plots, PLOTS * j),
        4 => {
            let mut order: Vec<usize> = (0..size).collect();
            random.shuffle(&mut order);
            let found: Vec<Vec<u8>> = order.iter().map(|&i| buffer[PLOTS * i..PLOTS * i + plots].to_vec()).collect();
            found.iter().enumerate().for_each(|(i, member)| buffer[PLOTS * i..PLOTS * i + plots].copy_from_slice(member));
        }
        5 => buffer[PLOTS * i + u] = random.pick(&[0, 240, 241, 255]),
        _ => {}
    }
}

/// A call of an entry that takes one family, its plots and its size.
pub fn asked(random: &mut Random, entry: &'static Entry) -> Call {
    let (plots, found) = family(random);
    let mut buffer = family_buffer(&found);
    damage(random, plots, found.len(), &mut buffer);
    buffer.resize(random.length(buffer.len()), 1);
    let sizes = [random.size(found.len()), 0];
    Call { plots: random.count(plots), sizes, families: [buffer, Vec::new()], ..Call::new(entry) }
}
