//! The plot design: questions 6 to 10.

use super::closing::{Members, Points, TooMany};
use super::column::{Columns, Walk};
use super::design::{classes, no_level_missing, write, Closed, Design};
use super::work::with_work;
use crate::{Level, COLUMNS, FAMILY, LEVELS, MEMBERS, PLOTS};

/// Closes the plot columns (question 8).
fn close_plots<'a>(columns: &Columns, plots: usize, members: &'a mut Members, walk: &mut Walk) -> Result<Closed<'a>, TooMany> {
    let points = Points::of_columns(columns, plots, walk);
    members.begin(points.count, MEMBERS - 2);
    for c in 0..columns.count {
        let count = columns.classes[c];
        if count > 1 && usize::from(count) < plots {
            members.add(&points.reduce(&columns.columns[c]), count)?;
        }
    }
    members.close_plots(plots, walk)?;
    let order = members.order();
    Ok(Closed { points, members, order })
}

/// The place of the first member whose classes differ in size (question 9); works out the sizes on the way.
fn first_uneven(family: &mut Closed, plots: usize) -> Option<usize> {
    for place in 0..family.members.count {
        let i = family.at(place);
        let count = usize::from(family.members.classes[i]);
        family.members.measure(i, &family.points.weights);
        let size = (plots / count) as u8;
        if family.members.sizes[i][1..=count].iter().any(|&s| s != size) {
            return Some(place + 2);
        }
    }
    None
}

/// Questions 8 to 10: writes the plot family and judges it. The family, unless it is refused.
pub fn judge_plots<'a>(
    columns: &Columns,
    plots: usize,
    buffer: &mut [u8],
    members: &'a mut Members,
    walk: &mut Walk,
    design: &mut Design,
) -> Option<Closed<'a>> {
    let Ok(mut family) = close_plots(columns, plots, members, walk) else {
        design.refused(8, 0, 0);
        return None;
    };
    design.plot_size = write(&family.points, family.members, &family.order, true, plots, buffer);
    design.plot_classes = classes(family.members, &family.order, true, plots);
    if let Some(place) = first_uneven(&mut family, plots) {
        design.refused(9, place, 0);
        return None;
    }
    if let Some((i, j)) = family.members.first_crooked_pair(&family.order) {
        design.refused(10, i + 2, j + 2);
        return None;
    }
    Some(family)
}

/// The plot design: questions 6 to 10.
pub fn plot_design(levels: &[Level], plots: usize, columns: usize, family: &mut [u8]) -> (u32, [u64; 3]) {
    let within = (1..=PLOTS).contains(&plots) && columns <= COLUMNS;
    if !within || levels.len() < LEVELS || family.len() < FAMILY {
        return (6, [0; 3]);
    }
    if !no_level_missing(levels, 0, columns, plots) {
        return (7, [0; 3]);
    }
    let columns = Columns::number(levels, 0, columns, plots);
    let mut design = Design::default();
    with_work(|work| judge_plots(&columns, plots, family, &mut work.plot_members, &mut work.walk, &mut design).is_some());
    (design.refusal, [design.first, design.second, design.plot_size].map(|n| n as u64))
}
