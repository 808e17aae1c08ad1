//! Degrees of freedom of accepted designs: none is below 0, and those of the strata sum to the number of plots. A closed family
//! that is not orthogonal can have numbers below 0.

mod common;

use common::*;
use reference::{Entries, Level, FAMILY};

fn levels(columns: &[&Partition]) -> Vec<Vec<Level>> {
    columns.iter().map(|column| column.iter().map(|&class| Level::from(class)).collect()).collect()
}

/// The first degrees of freedom of a family in a buffer; past them stand zeros.
fn degrees(entries: &Entries, family: &[u8], plots: usize, size: usize) -> Vec<i64> {
    let (number, answer) = (entries.degrees)(family, plots, size);
    assert_eq!(number, 0, "{}", entries.title);
    answer[..size].to_vec()
}

/// One full design: where it is accepted, no stratum, no treatment member and no residual is below 0. Answers whether it is.
fn check(entries: &Entries, plot_columns: &[&Partition], treatment_columns: &[&Partition]) -> bool {
    let plots = plot_columns[0].len();
    let table = level_table(&levels(plot_columns), &levels(treatment_columns));
    let (mut family, mut treatments) = (pattern(FAMILY), pattern(FAMILY));
    let (c, d) = (plot_columns.len(), treatment_columns.len());
    let (number, answer) = (entries.full_design)(&table, plots, c, d, 6, &mut family, &mut treatments);
    if number != 0 {
        return false;
    }
    let (size, treatment_size) = (answer[2] as usize, answer[3] as usize);
    let strata = degrees(entries, &family, plots, size);
    assert_eq!(strata.iter().sum::<i64>(), plots as i64, "{}: {plot_columns:?}", entries.title);
    let sources = degrees(entries, &treatments, plots, treatment_size);
    let (number, analysis) = (entries.strata)(&family, size, &treatments, treatment_size, plots);
    assert_eq!(number, 0, "{}: {plot_columns:?} {treatment_columns:?}", entries.title);
    let all = strata.iter().chain(&sources).chain(&analysis[32..]);
    assert!(all.copied().min() >= Some(0), "{}: {plot_columns:?} {treatment_columns:?}", entries.title);
    true
}

#[test]
fn one_plot_and_one_treatment_column_on_up_to_six_plots() {
    for plots in 1..=6 {
        let all = partitions(plots);
        let pairs = all.iter().flat_map(|f| all.iter().map(move |t| (f, t)));
        let accepted: usize = pairs.map(|(f, t)| BOTH.iter().filter(|e| check(e, &[f], &[t])).count()).sum();
        assert!(accepted >= 2 * all.len(), "U as the plot column goes with every treatment column");
    }
}

#[test]
fn two_plot_and_two_treatment_columns_on_four_plots() {
    let all = partitions(4);
    let mut accepted = 0;
    for f in &all {
        for g in &all {
            for t in &all {
                for s in &all {
                    accepted += usize::from(check(&BOTH[1], &[f, g], &[t, s]));
                }
            }
        }
    }
    assert!(accepted > 0);
}

#[test]
fn a_closed_family_that_is_not_orthogonal_has_numbers_below_0() {
    // Three divisions of six plots into pairs, no pair twice: any two have infimum E and supremum U, and E has 6 − 1 − 2 − 2 − 2.
    let pairs = [vec![1, 1, 2, 2, 3, 3], vec![1, 2, 1, 3, 2, 3], vec![1, 2, 3, 1, 3, 2]];
    let columns: Vec<&Partition> = pairs.iter().collect();
    for entries in &BOTH {
        let mut family = pattern(FAMILY);
        let (number, answer) = (entries.plot_design)(&level_table(&levels(&columns), &[]), 6, 3, &mut family);
        assert_eq!((number, answer), (10, [2, 3, 5]), "{}", entries.title);
        assert_eq!(degrees(entries, &family, 6, 5), [1, 2, 2, 2, -1], "{}", entries.title);
    }
}
