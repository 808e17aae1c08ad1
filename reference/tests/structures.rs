//! The verdict against all orthogonal block structures: on up to six plots every structure is listed by search, and the plot
//! design has to accept exactly the columns that one of them contains, with the least of these as its family.

mod common;

use common::*;
use reference::{Entries, Level, FAMILY};

fn numbered(labels: &[usize]) -> Partition {
    let first = |u: usize| labels.iter().position(|&label| label == labels[u]).unwrap_or(u);
    let firsts: Vec<usize> = (0..labels.len()).filter(|&u| first(u) == u).collect();
    (0..labels.len()).map(|u| firsts.iter().position(|&f| f == first(u)).map_or(0, |i| i as u8 + 1)).collect()
}

fn infimum(f: &Partition, g: &Partition) -> Partition {
    let labels: Vec<usize> = f.iter().zip(g).map(|(&a, &b)| 256 * usize::from(a) + usize::from(b)).collect();
    numbered(&labels)
}

/// Plots take the lowest label of any plot beside them in either division until nothing changes.
fn supremum(f: &Partition, g: &Partition) -> Partition {
    let mut labels: Vec<usize> = (0..f.len()).collect();
    loop {
        let beside = |u: usize| (0..f.len()).filter(move |&v| f[u] == f[v] || g[u] == g[v]);
        let lower: Vec<usize> = (0..f.len()).map(|u| beside(u).map(|v| labels[v]).min().unwrap_or(u)).collect();
        if lower == labels {
            return numbered(&labels);
        }
        labels = lower;
    }
}

fn size(f: &Partition, u: usize) -> usize {
    f.iter().filter(|&&class| class == f[u]).count()
}

fn orthogonal(f: &Partition, g: &Partition) -> bool {
    let k = supremum(f, g);
    let both = |u: usize, v: usize| (0..f.len()).filter(|&w| f[w] == f[u] && g[w] == g[v]).count();
    let holds = |u: usize, v: usize| k[u] != k[v] || both(u, v) * size(&k, u) == size(f, u) * size(g, v);
    (0..f.len()).all(|u| (0..f.len()).all(|v| holds(u, v)))
}

fn uniform(f: &Partition) -> bool {
    (0..f.len()).all(|u| size(f, u) == size(f, 0))
}

fn closed(structure: &[Partition]) -> bool {
    let inside = |f: Partition| structure.contains(&f);
    structure.iter().all(|f| structure.iter().all(|g| inside(infimum(f, g)) && inside(supremum(f, g))))
}

/// Every orthogonal block structure: sets of uniform, pairwise orthogonal divisions with U and E that are closed.
fn structures(plots: usize) -> Vec<Vec<Partition>> {
    let (universal, equality) = (vec![1; plots], (1..=plots as u8).collect::<Partition>());
    let candidates: Vec<Partition> = partitions(plots).into_iter().filter(uniform).collect();
    let mut start = vec![universal.clone()];
    if equality != universal {
        start.push(equality);
    }
    let others: Vec<Partition> = candidates.into_iter().filter(|f| !start.contains(f)).collect();
    let mut found = Vec::new();
    grow(&mut start, &others, &mut found);
    found
}

/// All closed sets that extend the given one by some of the others.
fn grow(set: &mut Vec<Partition>, others: &[Partition], found: &mut Vec<Vec<Partition>>) {
    let Some((next, rest)) = others.split_first() else {
        if closed(set) {
            found.push(set.clone());
        }
        return;
    };
    grow(set, rest, found);
    if set.iter().all(|f| orthogonal(f, next)) {
        set.push(next.clone());
        grow(set, rest, found);
        set.pop();
    }
}

/// One choice of columns: accepted exactly when a structure contains them, and with the least one.
fn check(entries: &Entries, columns: &[Partition], structures: &[Vec<Partition>]) {
    let plots = columns[0].len();
    let levels: Vec<Vec<Level>> = columns.iter().map(|c| c.iter().map(|&class| Level::from(class)).collect()).collect();
    let mut family = pattern(FAMILY);
    let (number, answer) = (entries.plot_design)(&level_table(&levels, &[]), plots, columns.len(), &mut family);
    let containing: Vec<&Vec<Partition>> = structures.iter().filter(|s| columns.iter().all(|c| s.contains(c))).collect();
    let exists = !containing.is_empty();
    assert_eq!(number == 0, exists, "{}: {columns:?}", entries.title);
    assert!(exists || number == 9 || number == 10, "{}: {columns:?}", entries.title);
    if exists {
        let found = members(&family, plots, answer[2]);
        assert!(containing.iter().any(|s| s.len() == found.len() && found.iter().all(|f| s.contains(f))));
        assert!(containing.iter().all(|s| found.iter().all(|f| s.contains(f))), "{}: {columns:?}", entries.title);
    }
}

#[test]
fn one_and_two_columns_on_up_to_six_plots() {
    for plots in 1..=6 {
        let (structures, all) = (structures(plots), partitions(plots));
        for f in &all {
            for g in all.iter().filter(|g| plots < 6 || uniform(f) || uniform(g)) {
                BOTH.iter().for_each(|entries| check(entries, &[f.clone(), g.clone()], &structures));
            }
        }
    }
}

#[test]
fn three_columns_on_up_to_four_plots() {
    for plots in 1..=4 {
        let (structures, all) = (structures(plots), partitions(plots));
        for f in &all {
            for g in &all {
                for h in &all {
                    BOTH.iter().for_each(|e| check(e, &[f.clone(), g.clone(), h.clone()], &structures));
                }
            }
        }
    }
}

#[test]
fn as_many_structures_as_known() {
    // On four plots: U and E with none, one, two or three of the three divisions into pairs. On six plots: with none, one
    // of fifteen divisions into pairs, one of ten into triples, or one of each that cross, six for each into triples.
    let counts: Vec<usize> = (1..=6).map(|plots| structures(plots).len()).collect();
    assert_eq!(counts, [1, 1, 1, 8, 1, 1 + 15 + 10 + 60]);
}
