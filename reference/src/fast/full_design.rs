//! The full design: questions 6 to 14.

use super::closing::{Members, Points, TooMany};
use super::column::{ByClass, Column, Columns, Walk};
use super::design::{classes, no_level_missing, write, Closed, Design};
use super::order::ones;
use super::plot_design::judge_plots;
use super::work::{with_work, Work};
use crate::{Level, COLUMNS, FAMILY, INTERACTIONS, LEVELS, MEMBERS, PLOTS};

/// The columns whose infima are taken, over points.
struct Factors {
    count: usize,
    columns: [Column; COLUMNS],
    classes: [u8; COLUMNS],
}

/// Adds the infima of a column with up to `left` of the factors from `from` on. A factor that adds nothing is passed over:
/// the infima with it are those without it.
fn add_infima(
    members: &mut Members,
    factors: &Factors,
    (column, classes): (&Column, u8),
    from: usize,
    left: usize,
    walk: &mut Walk,
) -> Result<(), TooMany> {
    let points = members.points;
    for c in from..factors.count {
        walk.meet(&column[..points], classes, &factors.columns[c][..points], factors.classes[c]);
        if walk.cells > usize::from(classes) {
            let (infimum, cells) = (walk.infimum, walk.cells as u8);
            members.add(&infimum, cells)?;
            if left > 1 && usize::from(cells) < points {
                add_infima(members, factors, (&infimum, cells), c + 1, left - 1, walk)?;
            }
        }
    }
    Ok(())
}

/// Closes the infima of 1 to k treatment columns (question 11).
fn close_treatments<'a>(
    columns: &Columns,
    k: usize,
    plots: usize,
    members: &'a mut Members,
    walk: &mut Walk,
) -> Result<Closed<'a>, TooMany> {
    let points = Points::of_columns(columns, plots, walk);
    members.begin(points.count, MEMBERS - 1);
    let mut factors = Factors { count: columns.count, columns: [[0; PLOTS]; COLUMNS], classes: columns.classes };
    for c in 0..columns.count {
        factors.columns[c] = points.reduce(&columns.columns[c]);
    }
    add_infima(members, &factors, (&[1; PLOTS], 1), 0, k, walk)?;
    members.close_treatments(&points.weights, walk)?;
    let order = members.order();
    Ok(Closed { points, members, order })
}

/// The members in order over points of which each is a part of one of the family's points.
fn spread(family: &Closed, points: &Points, columns: &mut [Column; MEMBERS]) {
    for (place, column) in columns[..family.members.count].iter_mut().enumerate() {
        let member = &family.members.columns[family.at(place)];
        for (number, &plot) in column[..points.count].iter_mut().zip(&points.first) {
            *number = member[usize::from(family.points.of[usize::from(plot)] - 1)];
        }
    }
}

/// A member of one of both families over the points that both part.
struct Member<'a> {
    column: &'a [u8],
    classes: u8,
    sizes: &'a ByClass,
}

/// How a plot member F and a treatment member G stand.
enum Pair {
    Finer,
    Coarser,
    /// Neither is finer; they are orthogonal.
    Crossed,
    Crooked,
}

/// Walks a pair. Where neither is finer the walk holds the supremum afterwards.
fn pair(f: &Member, g: &Member, weights: &[u8], walk: &mut Walk) -> Pair {
    walk.meet(f.column, f.classes, g.column, g.classes);
    if walk.cells == usize::from(f.classes) {
        return Pair::Finer;
    }
    if walk.cells == usize::from(g.classes) {
        return Pair::Coarser;
    }
    walk.join(f.classes);
    if walk.orthogonal(weights, f.sizes, f.classes, g.sizes) {
        Pair::Crossed
    } else {
        Pair::Crooked
    }
}

/// The columns of both families over the points that both part.
struct Together<'a> {
    points: &'a Points,
    plots: &'a [Column; MEMBERS],
    treatments: &'a [Column; MEMBERS],
}

impl<'a> Together<'a> {
    fn member(&self, columns: &'a [Column; MEMBERS], family: &'a Closed, place: usize) -> Member<'a> {
        let (i, members) = (family.at(place), &family.members);
        Member { column: &columns[place][..self.points.count], classes: members.classes[i], sizes: &members.sizes[i] }
    }
}

/// What question 13 and the suprema after it come to.
enum Pairs {
    /// The first failing pair, places from 0 among the members without U.
    Crooked(usize, usize),
    TooMany,
    Closed,
}

/// For each treatment member those known to be finer than it, and itself, a bit each.
fn at_or_below(members: &Members) -> [u32; MEMBERS] {
    let mut below: [u32; MEMBERS] = std::array::from_fn(|j| 1 << j);
    for x in 0..members.count {
        for j in ones(members.above[x]) {
            below[j] |= 1 << x;
        }
    }
    below
}

/// Question 13 over all pairs, gathering the suprema for question 14 on the way. A pair of which one is finer is orthogonal
/// and has the coarser one as supremum; what is known of the order within the families saves walks over such pairs.
fn judge_pairs(family: &Closed, first: &Closed, together: &Together, last: &mut Members, walk: &mut Walk) -> Pairs {
    let below = at_or_below(first.members);
    let weights = &together.points.weights[..together.points.count];
    let mut coarser_than = [0; MEMBERS];
    let mut few = true;
    for i in 0..family.members.count {
        let f = together.member(together.plots, family, i);
        let mut coarser = ones(family.members.above[family.at(i)]).fold(0, |known, above| known | coarser_than[above]);
        let mut finer = 0u32;
        for j in 0..first.members.count {
            let b = first.at(j);
            if (coarser | finer) >> b & 1 == 1 {
                continue;
            }
            match pair(&f, &together.member(together.treatments, first, j), weights, walk) {
                Pair::Finer => coarser |= 1 << b | first.members.above[b],
                Pair::Coarser => finer |= below[b],
                Pair::Crossed => few = few && add_supremum(&f, last, walk).is_ok(),
                Pair::Crooked => return Pairs::Crooked(i, j),
            }
        }
        if finer != 0 {
            few = few && last.add(&together.plots[i], f.classes).is_ok();
        }
        coarser_than[family.at(i)] = coarser;
    }
    if few {
        Pairs::Closed
    } else {
        Pairs::TooMany
    }
}

/// Adds the supremum of the pair just walked.
fn add_supremum(f: &Member, last: &mut Members, walk: &Walk) -> Result<(), TooMany> {
    if walk.joined > 1 {
        let mut column = [0; PLOTS];
        walk.supremum(f.column, &mut column);
        last.add(&column, walk.joined as u8)?;
    }
    Ok(())
}

/// Questions 11 to 14.
fn judge_treatments(
    family: &Closed,
    first: Closed,
    plots: usize,
    buffer: &mut [u8],
    (last, plot_columns, first_columns): (&mut Members, &mut [Column; MEMBERS], &mut [Column; MEMBERS]),
    walk: &mut Walk,
    design: &mut Design,
) {
    design.treatment_size = write(&first.points, first.members, &first.order, false, plots, buffer);
    design.treatment_classes = classes(first.members, &first.order, false, plots);
    if let Some((i, j)) = first.members.first_crooked_pair(&first.order) {
        return design.refused(12, i + 2, j + 2);
    }
    if family.members.count == 0 || first.members.count == 0 {
        return;
    }
    let points = family.points.together(&first.points, plots, walk);
    spread(family, &points, plot_columns);
    spread(&first, &points, first_columns);
    last.begin(points.count, MEMBERS - 1);
    last.begin_with(first_columns, &first.order, first.members);
    let together = Together { points: &points, plots: plot_columns, treatments: first_columns };
    match judge_pairs(family, &first, &together, last, walk) {
        Pairs::Crooked(i, j) => design.refused(13, i + 2, j + 2),
        Pairs::TooMany => design.refused(14, 0, 0),
        Pairs::Closed if last.count > first.members.count => {
            let order = last.order();
            design.treatment_size = write(&points, last, &order, false, plots, buffer);
            design.treatment_classes = classes(last, &order, false, plots);
        }
        Pairs::Closed => {}
    }
}

/// Questions 8 to 14 over numbered columns.
pub fn judge(
    plot_columns: &Columns,
    treatment_columns: &Columns,
    k: usize,
    plots: usize,
    plot_buffer: &mut [u8],
    treatment_buffer: &mut [u8],
    work: &mut Work,
) -> Design {
    let mut design = Design::default();
    let walk = &mut work.walk;
    let members = &mut work.plot_members;
    if let Some(family) = judge_plots(plot_columns, plots, plot_buffer, members, walk, &mut design) {
        match close_treatments(treatment_columns, k, plots, &mut work.first_members, walk) {
            Err(TooMany) => design.refused(11, 0, 0),
            Ok(first) => {
                let last = (&mut work.final_members, &mut work.plot_columns, &mut work.first_columns);
                judge_treatments(&family, first, plots, treatment_buffer, last, walk, &mut design);
            }
        }
    }
    design
}

/// The full design: questions 6 to 14.
pub fn full_design(
    levels: &[Level],
    plots: usize,
    plot_columns: usize,
    treatment_columns: usize,
    k: usize,
    plot_buffer: &mut [u8],
    treatment_buffer: &mut [u8],
) -> (u32, [u64; 4]) {
    let within = (1..=PLOTS).contains(&plots) && plot_columns <= COLUMNS && treatment_columns <= COLUMNS;
    let long_enough = levels.len() >= LEVELS && plot_buffer.len() >= FAMILY && treatment_buffer.len() >= FAMILY;
    if !within || !(1..=INTERACTIONS).contains(&k) || !long_enough {
        return (6, [0; 4]);
    }
    let complete = |first, count| no_level_missing(levels, first, count, plots);
    if !complete(0, plot_columns) || !complete(COLUMNS, treatment_columns) {
        return (7, [0; 4]);
    }
    let of_plots = Columns::number(levels, 0, plot_columns, plots);
    let of_treatments = Columns::number(levels, COLUMNS, treatment_columns, plots);
    let design = with_work(|work| judge(&of_plots, &of_treatments, k, plots, plot_buffer, treatment_buffer, work));
    (design.refusal, [design.first, design.second, design.plot_size, design.treatment_size].map(|n| n as u64))
}
