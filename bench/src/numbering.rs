//! How the time of numbering one column grows with plots, for labels that are easy to find again and for hard ones.

use crate::entries::{Trial, ALL, NUMBER};
use crate::series::{Series, BY_PLOTS};
use crate::sheets::{sheet, Sheet};
use compare::buckets::sharing;
use reference::{Level, PLOTS};
use std::time::Duration;

/// Six plot columns and six treatment columns.
const TWELVE: &str = "p:Aa p:Bb p:Cc p:Dd p:Ee p:Ff t:Gg t:Hh t:Ii t:Jj t:Kk t:Ll";

/// A kind of labels: its words, so many different ones that are not 0, and how often each comes in a column.
type Kind = (&'static str, fn(usize) -> Vec<Level>, usize);

const KINDS: [Kind; 4] = [
    ("near to each other", near, 2),
    ("far apart", far_apart, 2),
    ("that share a bucket of the library", one_bucket, 2),
    ("that share a bucket of the library, all different", one_bucket, 1),
];

fn near(count: usize) -> Vec<Level> {
    (1..=count as Level).collect()
}

fn far_apart(count: usize) -> Vec<Level> {
    (0..count as Level).map(|i| 1 + (Level::MAX - 1) / count as Level * i).collect()
}

/// So many labels that share a bucket of the library, none of them 0.
fn one_bucket(count: usize) -> Vec<Level> {
    sharing(1).filter(|&label| label != 0).take(count).collect()
}

/// Columns alike, with labels of this kind.
fn alike((_, labels, often): Kind, headings: &str, plots: usize) -> Sheet {
    let labels = labels(plots / often);
    sheet(&format!("{plots} plots"), headings, plots, |u, _| labels[u % labels.len()] as usize - 1)
}

/// One column numbered, on more and more plots.
fn by_plots(kind: Kind) -> Series {
    let sheets = BY_PLOTS.into_iter().map(|plots| (plots, alike(kind, "p:Plot", plots))).collect();
    Series { title: format!("numbering: labels {}", kind.0), entry: &NUMBER, said: ("classes", Trial::classes), digits: 3, sheets }
}

/// The printed table of the sheet that takes numbering longest.
fn whole_table(kind: Kind) -> Series {
    let title = format!("the printed table of twelve columns alike: labels {}", kind.0);
    let sheets = vec![(PLOTS, alike(kind, TWELVE, PLOTS))];
    Series { title, entry: &ALL[0], said: ("members", Trial::members), digits: 2, sheets }
}

/// Prints tables for each kind of labels; whether both agreed on every column.
pub fn tables(limit: Duration) -> bool {
    let mut series = KINDS.into_iter().flat_map(|kind| [by_plots(kind), whole_table(kind)]);
    series.all(|series| series.measure(limit).is_some())
}
