//! Trials made at random: crossed, nested, Latin-square, damaged and scattered columns.

use crate::levels::different;
use crate::memory::{level_table, members, pattern};
use crate::random::Random;
use reference::{Level, COLUMNS, FAMILY, FAST, INTERACTIONS, LEVELS, PLOTS};

/// A trial: its plots, and the levels of its plot columns and of its treatment columns.
pub struct Trial {
    pub plots: usize,
    pub columns: [Vec<Vec<Level>>; 2],
}

impl Trial {
    pub fn level_table(&self) -> Vec<Level> {
        level_table(&self.columns[0], &self.columns[1])
    }

    pub fn counts(&self) -> [usize; 2] {
        [self.columns[0].len(), self.columns[1].len()]
    }

    /// The members of both families that the full design writes, refused or not; U alone where it writes none.
    pub fn families(&self) -> [Vec<Vec<u8>>; 2] {
        let (mut first, mut second) = (pattern(FAMILY), pattern(FAMILY));
        let [p, t] = self.counts();
        let (_, sizes) = (FAST.full_design)(&self.level_table(), self.plots, p, t, INTERACTIONS, &mut first, &mut second);
        let found = [members(&first, self.plots, sizes[2]), members(&second, self.plots, sizes[3])];
        found.map(|members| if members.is_empty() { vec![vec![1; self.plots]] } else { members })
    }
}

/// The numbers of a mixed radix: plot u's digits for these sizes.
fn digits(u: usize, radix: &[usize]) -> Vec<usize> {
    let mut rest = u;
    radix.iter().map(|&size| { let digit = rest % size; rest /= size; digit }).collect()
}

/// The digits that are chosen, taken together: crossed or nested with what other choices give.
fn together(plots: usize, radix: &[usize], chosen: &[bool]) -> Vec<usize> {
    let label = |u: usize| {
        let digits = digits(u, radix);
        digits.iter().zip(chosen).zip(radix).fold(0, |sum, ((d, &take), size)| if take { sum * size + d } else { sum })
    };
    (0..plots).map(label).collect()
}

/// A structured column: some digits taken together, or sums of two digits (a Latin square).
fn structured(random: &mut Random, plots: usize, radix: &[usize]) -> Vec<usize> {
    if !random.once_in(4) {
        let chosen: Vec<bool> = radix.iter().map(|_| random.once_in(2)).collect();
        return together(plots, radix, &chosen);
    }
    let (a, b) = (random.below(radix.len()), random.below(radix.len()));
    let factor = 1 + random.below(4);
    let label = |u: usize| { let digit = digits(u, radix); (digit[a] + factor * digit[b]) % radix[a] };
    (0..plots).map(label).collect()
}

/// The sizes of a small factorial whose product is the number of plots.
fn factorial(random: &mut Random) -> Vec<usize> {
    if random.once_in(4) {
        return vec![2; random.pick(&[3, 4, 5, 5, 6])];
    }
    if random.once_in(12) {
        return random.pick(&[vec![2, 2, 2, 3, 10], vec![2, 2, 2, 3, 5, 2], vec![4, 3, 5, 4], vec![2, 3, 2, 5, 4], vec![15, 16]]);
    }
    let most = random.pick(&[4, 8, 12, 16, 24, 32, 48, 64, 240]);
    let mut radix = vec![random.pick(&[2, 2, 3, 4, 5])];
    for _ in 0..5 {
        let size = random.pick(&[2, 2, 2, 3, 3, 4, 5]);
        if radix.iter().product::<usize>() * size <= most {
            radix.push(size);
        }
    }
    radix
}

/// A column of sums of two-level digits, 1 to 4 sums taken together: any two of these are orthogonal.
fn sums(random: &mut Random, plots: usize, bits: usize) -> Vec<usize> {
    let chosen: Vec<usize> = (0..1 + random.below(4)).map(|_| random.below(1 << bits)).collect();
    sums_of(plots, &chosen)
}

/// These sums of two-level digits taken together.
fn sums_of(plots: usize, chosen: &[usize]) -> Vec<usize> {
    let odd = |u: usize, sum: usize| ((u & sum).count_ones() % 2) as usize;
    (0..plots).map(|u| chosen.iter().fold(0, |label, &sum| 2 * label + odd(u, sum))).collect()
}

/// A column of labels: structured, damaged in a cell, or random.
fn labels(random: &mut Random, plots: usize, radix: &[usize]) -> Vec<usize> {
    if radix.len() > 2 && radix.iter().all(|&size| size == 2) && !random.once_in(3) {
        return sums(random, plots, radix.len());
    }
    match random.below(24) {
        0 => scattered(random, plots),
        1 => vec![0; plots],
        2 => (0..plots).collect(),
        3 => {
            let mut column = structured(random, plots, radix);
            let at = random.below(plots);
            column[at] = random.below(4);
            column
        }
        _ => structured(random, plots, radix),
    }
}

/// A column of labels without any structure.
fn scattered(random: &mut Random, plots: usize) -> Vec<usize> {
    let classes = 1 + random.below(plots);
    (0..plots).map(|_| random.below(classes)).collect()
}

/// All columns of one kind. Digits one by one are fully crossed, the first so many together are nested, few plots may be scattered;
/// else each as it comes.
fn labelled(random: &mut Random, plots: usize, radix: &[usize]) -> Vec<Vec<usize>> {
    let many = random.pick(&[0, 1, 1, 2, 2, 3, 3, 4, 5, 6]);
    let chosen = |most: usize, take: &dyn Fn(usize, usize) -> bool| -> Vec<Vec<usize>> {
        let column = |c: usize| together(plots, radix, &(0..radix.len()).map(|i| take(i, c)).collect::<Vec<bool>>());
        (0..most.min(radix.len())).map(column).collect()
    };
    match random.below(8) {
        0 => chosen(6, &|i, c| i == c),
        1 => chosen(5, &|i, c| i == c),
        2 => chosen(many, &|i, c| i <= c),
        3 if plots <= 6 => (0..many).map(|_| scattered(random, plots)).collect(),
        _ => (0..many).map(|_| labels(random, plots, radix)).collect(),
    }
}

/// Labels as levels, in any order.
fn as_levels(random: &mut Random, labels: &[usize]) -> Vec<Level> {
    let most = labels.iter().max().copied().unwrap_or(0);
    let mut names = different(random, most + 1);
    random.shuffle(&mut names);
    labels.iter().map(|&label| names[label]).collect()
}

/// Plot columns and treatment columns on the same plots, the plots in any order.
pub fn trial(random: &mut Random) -> Trial {
    let (radix, plots) = shape(random);
    shaped(random, &radix, plots)
}

/// Two trials on the same plots that were made one by one.
pub fn two_trials(random: &mut Random) -> [Trial; 2] {
    let (radix, plots) = shape(random);
    [0, 1].map(|_| shaped(random, &radix, plots))
}

/// The sizes of a factorial, and the number of plots: their product, now and then another one.
fn shape(random: &mut Random) -> (Vec<usize>, usize) {
    let radix = factorial(random);
    let mut plots: usize = radix.iter().product();
    if random.once_in(12) {
        plots = 1 + random.below(plots + 3).min(PLOTS - 1);
    }
    (radix, plots)
}

/// A trial of this shape.
fn shaped(random: &mut Random, radix: &[usize], plots: usize) -> Trial {
    let mut order: Vec<usize> = (0..plots).collect();
    if random.once_in(2) {
        random.shuffle(&mut order);
    }
    let mut kind = || -> Vec<Vec<Level>> {
        let found = labelled(random, plots, radix);
        let moved = |column: &Vec<usize>| -> Vec<usize> { order.iter().map(|&u| column[u]).collect() };
        found.iter().map(|column| as_levels(random, &moved(column))).collect()
    };
    Trial { plots, columns: [kind(), kind()] }
}

/// A column that is finer than or equivalent to another one: within its classes some plots are joined, pair by pair.
fn within(random: &mut Random, base: &[usize]) -> Vec<usize> {
    let mut column: Vec<usize> = (0..base.len()).collect();
    for _ in 0..random.below(2 * base.len()) {
        let (u, v) = (random.below(base.len()), random.below(base.len()));
        if base[u] == base[v] {
            let (from, to) = (column[u], column[v]);
            column.iter_mut().filter(|label| **label == from).for_each(|label| *label = to);
        }
    }
    column
}

/// Makes one column after another.
type Maker = Box<dyn Fn(&mut Random) -> Vec<usize>>;

/// The number of plots, and a maker of columns that have a coarser factor in common: two digits, a sum, or classes of plots.
fn sharing(random: &mut Random) -> (usize, Maker) {
    match random.below(3) {
        0 => {
            let radix = random.pick(&[vec![2; 4], vec![2; 5], vec![3, 2, 2], vec![2, 3, 3], vec![2, 2, 3, 2], vec![2, 2, 2, 3, 2]]);
            // Where there are more plots, the digits begin again.
            let plots = radix.iter().product::<usize>() * (1 + random.below(2));
            let column = move |random: &mut Random| {
                // One of the two alone, or most of the digits.
                let alone = random.pick(&[Some(0), Some(1), None, None, None]);
                let mut digit = |i: usize| alone.map_or_else(|| !random.once_in(if i < 2 { 8 } else { 2 }), |digit| i == digit);
                together(plots, &radix, &(0..radix.len()).map(&mut digit).collect::<Vec<bool>>())
            };
            (plots, Box::new(column))
        }
        1 => {
            let bits = 3 + random.below(3);
            let first = 1 + random.below((1 << bits) - 1);
            let column = move |random: &mut Random| {
                let more = (0..random.pick(&[0, 1, 1, 2, 2, 3])).map(|_| random.below(1 << bits)).collect::<Vec<usize>>();
                sums_of(1 << bits, &[&[first], &more[..]].concat())
            };
            (1 << bits, Box::new(column))
        }
        _ => {
            let plots = 4 + random.below(21);
            let classes = 2 + random.below(3);
            let base: Vec<usize> = (0..plots).map(|_| random.below(classes)).collect();
            (plots, Box::new(move |random| within(random, &base)))
        }
    }
}

/// A trial of 2 to 12 columns with members that are suprema of columns: most of them have a coarser factor in common, and many are
/// equivalent to an earlier one of either kind.
pub fn sharing_trial(random: &mut Random) -> Trial {
    let (plots, column) = sharing(random);
    let mut columns: [Vec<Vec<usize>>; 2] = [Vec::new(), Vec::new()];
    for _ in 0..2 + random.below(11) {
        let earlier = columns.concat();
        let column = match random.below(20) {
            0..=3 if !earlier.is_empty() => random.pick(&earlier),
            4 => scattered(random, plots),
            5 => (0..plots).collect(),
            6 => vec![0; plots],
            _ => column(random),
        };
        let kind = random.below(2);
        let kind = if columns[kind].len() < COLUMNS { kind } else { 1 - kind };
        columns[kind].push(column);
    }
    let mut order: Vec<usize> = (0..plots).collect();
    random.shuffle(&mut order);
    let mut levels = |column: &Vec<usize>| as_levels(random, &order.iter().map(|&u| column[u]).collect::<Vec<usize>>());
    let columns = columns.each_ref().map(|kind| kind.iter().map(&mut levels).collect());
    Trial { plots, columns }
}

/// A trial with at least one column, as a sheet needs.
pub fn trial_with_columns(random: &mut Random) -> Trial {
    let mut trial = trial(random);
    if trial.counts() == [0, 0] {
        trial.columns[1].push(vec![9; trial.plots]);
    }
    trial
}

/// A trial, its level table for a design (now and then with a level missing, short or longer), and an interaction level.
pub fn designed(random: &mut Random) -> (Trial, Vec<Level>, usize) {
    let trial = trial(random);
    let mut levels = trial.level_table();
    if random.once_in(25) {
        levels[PLOTS * random.below(2 * COLUMNS) + random.below(trial.plots + 1).min(PLOTS - 1)] = 0;
    }
    levels.resize(random.length(LEVELS), 3);
    let k = 1 + random.below(INTERACTIONS);
    (trial, levels, k)
}
