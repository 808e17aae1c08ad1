//! Two families on the same plots and a place in each, made at random: so that factors stand to each other in each way often. And how a
//! call with two places is made smaller.

use crate::call::Call;
use crate::family::{in_order, numbered, of_columns};
use crate::memory::family_buffer;
use crate::random::Random;
use crate::shrink::{drop_plots, pieces, step, Step, Steps};
use crate::trial::{sharing_trial, trial, two_trials};
use reference::{FAST, MEMBERS, PLOTS};

/// The columns of a family's members.
type Members = Vec<Vec<u8>>;

/// Two families and a place in each.
pub struct Pair {
    pub plots: usize,
    pub families: [Members; 2],
    pub places: [usize; 2],
}

/// A pair in order, now and then with as many members in a family as there may be, or more.
pub fn pair(random: &mut Random) -> Pair {
    let (plots, mut families) = families(random);
    if random.once_in(4) {
        families[1] = families[0].clone();
    }
    for members in &mut families {
        if random.once_in(3) {
            members.retain(|_| !random.once_in(4));
        }
        if random.once_in(8) {
            let classes = 2 + random.below(plots.min(5));
            members.extend((0..MEMBERS + 8).map(|_| division(random, plots, classes)));
        }
        in_order(members);
        members.truncate(if random.once_in(4) { MEMBERS + 2 } else { MEMBERS });
        if members.is_empty() {
            members.push(vec![1; plots]);
        }
    }
    let places = places(random, plots, &families);
    Pair { plots, families, places }
}

/// Two families: of one trial, of two trials on the same plots, of columns that have a coarser factor in common, of plots in grids or in
/// rings, or of any divisions of few plots.
fn families(random: &mut Random) -> (usize, [Members; 2]) {
    match random.below(7) {
        0 => {
            let trial = trial(random);
            let [plot, treatment] = trial.families();
            (trial.plots, if random.once_in(2) { [plot, treatment] } else { [treatment, plot] })
        }
        1 => {
            let trials = two_trials(random);
            (trials[0].plots, trials.map(|trial| trial.families()[random.below(2)].clone()))
        }
        2 => {
            let (trial, kinds) = (sharing_trial(random), [random.below(2), random.below(2)]);
            (trial.plots, kinds.map(|kind| of_columns(random, &trial, kind)))
        }
        3 | 4 => in_blocks(random, grid),
        5 => in_blocks(random, ring),
        _ => {
            let plots = 1 + random.below(8);
            let all: Members = (0..12).map(|_| division(random, plots, plots)).collect();
            (plots, [all[..8].to_vec(), all[4..].to_vec()])
        }
    }
}

/// Any division of the plots into at most so many classes.
fn division(random: &mut Random, plots: usize, classes: usize) -> Vec<u8> {
    numbered(&(0..plots).map(|_| random.below(classes)).collect::<Vec<usize>>())
}

/// A row and a column for each plot.
type Cells = Vec<[usize; 2]>;

/// One to three weights of rows or of columns.
fn weights(random: &mut Random) -> Vec<usize> {
    (0..random.pick(&[1, 2, 2, 2, 3])).map(|_| random.pick(&[1, 1, 1, 2, 2, 3])).collect()
}

/// A grid with as many plots in a cell as the weights of its row and of its column make: rows and columns are orthogonal, of any size.
fn grid(random: &mut Random) -> Cells {
    let (rows, columns) = (weights(random), weights(random));
    let cell = |row: usize, column: usize| vec![[row, column]; rows[row] * columns[column]];
    (0..rows.len()).flat_map(|row| (0..columns.len()).flat_map(move |column| cell(row, column)).collect::<Cells>()).collect()
}

/// A ring of cells, all alike: a row joins a cell with the next one, a column with the one before it. Four cells are a grid. In longer rings
/// rows and columns are not orthogonal, though all that meet do so alike.
fn ring(random: &mut Random) -> Cells {
    let (half, plots) = (random.pick(&[2, 2, 3, 4, 5]), 1 + random.below(3));
    (0..2 * half).flat_map(|cell| vec![[cell / 2, (cell + 1) % (2 * half) / 2]; plots]).collect()
}

/// One to three blocks of plots. The factors are those of block, row and column, within blocks or over all, and others near them.
fn in_blocks(random: &mut Random, block: fn(&mut Random) -> Cells) -> (usize, [Members; 2]) {
    let blocks = (0..1 + random.below(3)).map(|_| block(random)).collect::<Vec<Cells>>();
    let plots = blocks.iter().enumerate().flat_map(|(i, cells)| cells.iter().map(move |[row, column]| [i, *row, *column]));
    let mut plots: Vec<[usize; 3]> = plots.take(PLOTS).collect();
    random.shuffle(&mut plots);
    let label = |plot: &[usize; 3], chosen: usize| [0, 1, 2].map(|i| if chosen >> i & 1 == 1 { plot[i] } else { 0 });
    let factor = |chosen: usize| numbered(&plots.iter().map(|plot| label(plot, chosen)).collect::<Vec<[usize; 3]>>());
    let mut all: Members = (0..8).map(factor).collect();
    all.push(numbered(&(0..plots.len()).collect::<Vec<usize>>()));
    for _ in 0..3 {
        let near = random.pick(&all);
        all.push(near_to(random, near));
    }
    let families = [0, 1].map(|_| all.iter().filter(|_| !random.once_in(3)).cloned().collect());
    (plots.len(), families)
}

/// The factor with two classes joined, or with a plot in another class.
fn near_to(random: &mut Random, mut member: Vec<u8>) -> Vec<u8> {
    let [u, v] = [0, 1].map(|_| random.below(member.len()));
    let (from, to) = (member[u], member[v]);
    if random.once_in(2) {
        member.iter_mut().filter(|class| **class == from).for_each(|class| *class = to);
    } else {
        member[u] = to;
    }
    numbered(&member)
}

/// So many places are tried for members that stand as is wanted.
const TRIES: usize = 24;

/// A place in each family, of members that stand to each other in a way that is chosen at random, if such are found.
fn places(random: &mut Random, plots: usize, families: &[Members; 2]) -> [usize; 2] {
    let [first, second] = families;
    // Few members are orthogonal without either being finer, so these are wanted more often.
    let wanted = random.pick(&[1, 2, 3, 4, 4, 4, 5, 5]);
    let at = |member: &Vec<u8>| second.iter().position(|other| other == member);
    let shared: Vec<[usize; 2]> = first.iter().enumerate().filter_map(|(i, member)| Some([i + 1, at(member)? + 1])).collect();
    if wanted == 1 && !shared.is_empty() {
        return random.pick(&shared);
    }
    let [f, g] = families.each_ref().map(|members| family_buffer(members));
    let mut found = [1; 2];
    for _ in 0..TRIES {
        found = families.each_ref().map(|members| 1 + random.below(members.len()));
        if (FAST.compare)(&f, first.len(), found[0], &g, second.len(), found[1], plots) == (0, [wanted]) {
            break;
        }
    }
    found
}

/// The ways in which a call with two families and two places is made smaller.
pub const SMALLER: &[Steps] = &[alone, counts, crate::shrink::members, plots, crate::shrink::plots, crate::shrink::tables];

/// A family of the member that is asked about, and of no other.
fn alone(_: &Call) -> Vec<Step> {
    let only = |which: usize| {
        step(move |call| {
            let (place, family) = (call.places[which], &mut call.families[which]);
            let row = PLOTS * place.checked_sub(1).filter(|&row| row < MEMBERS)?;
            let member = family.get(row..row + PLOTS)?.to_vec();
            family[..PLOTS].copy_from_slice(&member);
            family[PLOTS..].fill(0);
            (call.sizes[which], call.places[which]) = (1, 1);
            Some(())
        })
    };
    vec![only(0), only(1)]
}

/// Sizes, places and plots at or beside a limit.
fn counts(call: &Call) -> Vec<Step> {
    let mut found = Vec::new();
    for which in [0, 1] {
        let size = call.sizes[which];
        for place in [0, 1, 2, size, size.saturating_add(1), MEMBERS, MEMBERS + 1] {
            found.push(step(move |call| {
                call.places[which] = place;
                Some(())
            }));
            found.push(step(move |call| {
                (call.sizes[which], call.places[which]) = (place, place);
                Some(())
            }));
        }
    }
    for plots in [0, 1, 2, PLOTS + 1] {
        found.push(step(move |call| {
            call.plots = plots;
            Some(())
        }));
    }
    found
}

/// Some plots that follow each other are left out, and the members numbered anew.
fn plots(call: &Call) -> Vec<Step> {
    if call.plots > PLOTS {
        return Vec::new();
    }
    let without = |(from, count)| {
        step(move |call| {
            drop_plots(call, from, count)?;
            for (family, size) in call.families.iter_mut().zip(call.sizes) {
                for row in family.chunks_mut(PLOTS).take(size) {
                    let member = numbered(&row[..call.plots.min(row.len())]);
                    row[..member.len()].copy_from_slice(&member);
                }
            }
            Some(())
        })
    };
    pieces(call.plots).into_iter().map(without).collect()
}
