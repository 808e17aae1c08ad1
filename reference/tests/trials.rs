//! The small trials with known outcome, and what each refusal leaves in lent memory.

mod common;

use common::*;
use reference::{Entries, Level, FAMILY, LEVELS, NAME, PLOTS};

/// What a plot design answers and leaves: the refusal, its places, and the members.
fn plot_design(entries: &Entries, columns: &[Vec<Level>], plots: usize) -> (u32, [u64; 3], Vec<Vec<u8>>) {
    let levels = level_table(columns, &[]);
    let mut family = pattern(FAMILY + 3);
    let (number, answer) = (entries.plot_design)(&levels, plots, columns.len(), &mut family);
    let found = members(&family, plots, answer[2]);
    let mut expected = pattern(FAMILY + 3);
    for (i, member) in found.iter().enumerate() {
        expected[PLOTS * i..PLOTS * i + plots].copy_from_slice(member);
    }
    assert_eq!(family, expected, "{}: bytes not used", entries.title);
    (number, answer, found)
}

fn degrees(entries: &Entries, members: &[Vec<u8>]) -> Vec<i64> {
    let (number, answer) = (entries.degrees)(&family_buffer(members), members[0].len(), members.len());
    assert_eq!(number, 0);
    assert!(answer[members.len()..].iter().all(|&degrees| degrees == 0));
    answer[..members.len()].to_vec()
}

/// An accepted plot design: its class numbers and degrees of freedom.
fn accepted(columns: &[Vec<Level>], plots: usize, expected_classes: &[u8], expected_degrees: &[i64]) {
    for entries in &BOTH {
        let (number, answer, found) = plot_design(entries, columns, plots);
        assert_eq!((number, answer), (0, [0, 0, expected_classes.len() as u64]), "{}", entries.title);
        assert_eq!(classes(&found), expected_classes);
        assert_eq!(degrees(entries, &found), expected_degrees);
    }
}

fn refused(columns: &[Vec<Level>], plots: usize, number: u32, answer: [u64; 3]) {
    for entries in &BOTH {
        let found = plot_design(entries, columns, plots);
        assert_eq!((found.0, found.1), (number, answer), "{}", entries.title);
    }
}

#[test]
fn one_plot_without_columns() {
    accepted(&[], 1, &[1], &[1]);
}

#[test]
fn two_plots_without_columns() {
    accepted(&[], 2, &[1, 2], &[1, 1]);
}

#[test]
fn classes_of_two_sizes_are_refused_by_9() {
    refused(&[vec![1, 1, 2]], 3, 9, [2, 0, 3]);
}

#[test]
fn three_columns_on_four_plots() {
    let columns = [vec![1, 1, 2, 2], vec![1, 2, 1, 2], vec![1, 2, 2, 1]];
    accepted(&columns, 4, &[1, 2, 2, 2, 4], &[1, 1, 1, 1, 0]);
}

#[test]
fn a_pair_that_is_not_orthogonal_is_refused_by_10() {
    refused(&[vec![1, 1, 2, 2, 3, 3], vec![1, 2, 1, 3, 2, 3]], 6, 10, [2, 3, 4]);
}

#[test]
fn question_9_comes_before_10() {
    refused(&[vec![1, 1, 1, 2, 2, 2], vec![1, 1, 2, 1, 2, 2]], 6, 9, [4, 0, 5]);
}

#[test]
fn a_supremum_between_the_columns_and_the_top() {
    let columns = [vec![1, 1, 2, 2, 3, 3, 4, 4], vec![1, 2, 1, 2, 3, 4, 3, 4]];
    accepted(&columns, 8, &[1, 2, 4, 4, 8], &[1, 1, 2, 2, 2]);
    for entries in &BOTH {
        let (_, _, found) = plot_design(entries, &columns, 8);
        let mut name = pattern(NAME);
        let levels = level_table(&columns, &[]);
        let family = family_buffer(&found);
        let answer = (entries.name)(b"p:Aa\tp:Bb\n", &levels, &family, 8, 5, 0, 2, &mut name);
        assert_eq!((answer, &name[..8]), ((0, [8]), &b"S(Aa,Bb)"[..]), "{}", entries.title);
        assert_eq!(name[8..], pattern(NAME)[8..]);
    }
}

#[test]
fn a_treatment_crossing_its_plot_column() {
    let (plot, treatment) = (vec![1, 1, 2, 2, 3, 3, 4, 4], vec![1, 2, 1, 2, 3, 4, 3, 4]);
    for entries in &BOTH {
        let levels = level_table(&[plot.clone()], &[treatment.clone()]);
        let (mut plots, mut treatments) = (pattern(FAMILY), pattern(FAMILY));
        let answer = (entries.full_design)(&levels, 8, 1, 1, 6, &mut plots, &mut treatments);
        assert_eq!(answer, (0, [0, 0, 3, 3]), "{}", entries.title);
        assert_eq!(classes(&members(&treatments, 8, 3)), [1, 2, 4]);
        let (number, strata) = (entries.strata)(&plots, 3, &treatments, 3, 8);
        assert_eq!(number, 0);
        assert_eq!(strata[..4], [1, 2, 3, 0]);
        assert_eq!(strata[32..36], [0, 2, 2, 0]);
    }
}

/// Column c has level 1 or 2 by bit c of the plot.
fn crossed(columns: usize, plots: usize) -> Vec<Vec<Level>> {
    (0..columns).map(|c| (0..plots).map(|u| (u >> c & 1) as Level + 1).collect()).collect()
}

#[test]
fn five_crossed_plot_columns_have_32_members_and_six_too_many() {
    for entries in &BOTH {
        let (number, answer, found) = plot_design(entries, &crossed(5, 32), 32);
        assert_eq!((number, answer), (0, [0, 0, 32]), "{}", entries.title);
        assert_eq!(degrees(entries, &found), [1; 32]);
    }
    refused(&crossed(6, 64), 64, 8, [0, 0, 0]);
}

#[test]
fn six_crossed_treatment_columns_by_their_interaction_level() {
    for entries in &BOTH {
        let levels = level_table(&[], &crossed(6, 64));
        for (k, expected) in [(6, (11, [0, 0, 2, 0])), (1, (0, [0, 0, 2, 7])), (2, (0, [0, 0, 2, 22]))] {
            let (mut plots, mut treatments) = (pattern(FAMILY), pattern(FAMILY));
            let answer = (entries.full_design)(&levels, 64, 0, 6, k, &mut plots, &mut treatments);
            assert_eq!(answer, expected, "{} k = {k}", entries.title);
            assert_eq!(classes(&members(&plots, 64, 2)), [1, 64]);
            if k == 6 {
                assert_eq!(treatments, pattern(FAMILY));
            }
        }
    }
}

#[test]
fn limits_and_lengths_are_judged_by_6() {
    let levels = vec![1; LEVELS];
    let counts = [(0, 1), (241, 1), (usize::MAX, 1), (1, 7), (1, usize::MAX), (usize::MAX, usize::MAX)];
    for entries in &BOTH {
        let mut family = pattern(FAMILY);
        for (plots, columns) in counts {
            assert_eq!((entries.plot_design)(&levels, plots, columns, &mut family), (6, [0; 3]));
            let mut other = pattern(FAMILY);
            let answer = (entries.full_design)(&levels, plots, columns, 0, 1, &mut family, &mut other);
            assert_eq!(answer, (6, [0; 4]));
        }
        assert_eq!((entries.plot_design)(&levels[1..], 1, 0, &mut family), (6, [0; 3]));
        assert_eq!((entries.plot_design)(&levels, 1, 0, &mut family[1..]), (6, [0; 3]));
        assert_eq!((entries.plot_design)(&[], 1, 0, &mut []), (6, [0; 3]));
        for (treatment_columns, k) in [(0, 0), (0, 7), (7, 1), (usize::MAX, 1), (0, usize::MAX)] {
            let mut other = pattern(FAMILY);
            let answer = (entries.full_design)(&levels, 1, 0, treatment_columns, k, &mut family, &mut other);
            assert_eq!(answer, (6, [0; 4]));
        }
        let short = (entries.full_design)(&levels, 1, 0, 0, 1, &mut family, &mut [0; FAMILY - 1]);
        assert_eq!(short, (6, [0; 4]));
        assert_eq!(family, pattern(FAMILY));
        assert_eq!((entries.relation)(&family, 0, 1), (6, [0; 97]));
        assert_eq!((entries.relation)(&family[1..], 1, 1), (6, [0; 97]));
        assert_eq!((entries.degrees)(&family, 241, 1), (6, [0; 32]));
        assert_eq!((entries.strata)(&family, 1, &family[1..], 1, 1), (6, [0; 64]));
    }
}

#[test]
fn only_used_levels_may_not_be_missing() {
    for entries in &BOTH {
        let levels = level_table(&[vec![1, 1, 2, 2]], &[vec![1, 0, 1, 2]]);
        let (mut plots, mut treatments) = (pattern(FAMILY), pattern(FAMILY));
        assert_eq!((entries.full_design)(&levels, 4, 1, 1, 6, &mut plots, &mut treatments), (7, [0; 4]));
        assert_eq!((plots.clone(), treatments), (pattern(FAMILY), pattern(FAMILY)));
        assert_eq!((entries.plot_design)(&levels, 5, 1, &mut plots), (7, [0; 3]));
        assert_eq!((entries.plot_design)(&levels, 4, 2, &mut plots), (7, [0; 3]));
        assert_eq!((entries.plot_design)(&levels, 4, 1, &mut plots), (0, [0, 0, 3]));
    }
}

#[test]
fn no_label_is_cut() {
    // In each pair one half is the same; the last one is in one bucket of the library, too.
    let pairs = [(1, 65_537), (65_536, 131_072), (65_535, 4_294_967_295), (4_294_901_760, 4_294_967_295), (1, 3_163_095_041)];
    for (a, b) in pairs {
        accepted(&[vec![a, a, b, b]], 4, &[1, 2, 4], &[1, 1, 2]);
        accepted(&[vec![a, a, b, b], vec![a, b, a, b]], 4, &[1, 2, 2, 4], &[1, 1, 1, 1]);
        refused(&[vec![a, a, b]], 3, 9, [2, 0, 3]);
        refused(&[vec![a, a, b, 0]], 4, 7, [0; 3]);
        let levels = level_table(&[vec![a, a, b, b]], &[vec![b, a, b, a]]);
        let family = family_buffer(&[vec![1, 1, 1, 1], vec![1, 1, 2, 2], vec![1, 2, 3, 4]]);
        for entries in &BOTH {
            let (mut plots, mut treatments) = (pattern(FAMILY), pattern(FAMILY));
            assert_eq!((entries.full_design)(&levels, 4, 1, 1, 6, &mut plots, &mut treatments), (0, [0, 0, 3, 2]));
            assert_eq!(members(&plots, 4, 3), [[1, 1, 1, 1], [1, 1, 2, 2], [1, 2, 3, 4]], "{}", entries.title);
            assert_eq!(members(&treatments, 4, 2), [[1, 1, 1, 1], [1, 2, 1, 2]], "{}", entries.title);
            let mut name = pattern(NAME);
            assert_eq!((entries.name)(b"p:Hut\n", &levels, &family, 4, 3, 0, 2, &mut name), (0, [3]));
            assert_eq!(name[..3], *b"Hut", "{}", entries.title);
        }
    }
}

#[test]
fn what_12_13_and_14_leave() {
    for entries in &BOTH {
        let crooked = level_table(&[], &[vec![1, 1, 1, 2, 2, 2], vec![1, 1, 2, 1, 2, 2]]);
        let (mut plots, mut treatments) = (pattern(FAMILY), pattern(FAMILY));
        let answer = (entries.full_design)(&crooked, 6, 0, 2, 6, &mut plots, &mut treatments);
        assert_eq!(answer, (12, [2, 3, 2, 4]), "{}", entries.title);
        assert_eq!(members(&treatments, 6, 4)[3], [1, 1, 2, 3, 4, 4]);
        let mixed = level_table(&[vec![1, 1, 1, 2, 2, 2]], &[vec![1, 1, 2, 1, 2, 2]]);
        let answer = (entries.full_design)(&mixed, 6, 1, 1, 6, &mut plots, &mut treatments);
        assert_eq!(answer, (13, [2, 2, 3, 2]), "{}", entries.title);
        assert_eq!(members(&treatments, 6, 2), [[1, 1, 1, 1, 1, 1], [1, 1, 2, 1, 2, 2]]);
    }
}

#[test]
fn a_final_family_that_is_too_large_leaves_the_first() {
    let bit = |u: usize, b: usize| u >> b & 1;
    let level = |bits: [usize; 4]| bits.iter().fold(0, |sum, b| 2 * sum + *b as Level) + 1;
    let sums = |u: usize| level([0, 1, 2, 3].map(|b| bit(u, b) ^ bit(u, b + 1)));
    let four = |u: usize| level([0, 1, 2, 3].map(|b| bit(u, b)));
    let treatment_columns = [(0..32).map(sums).collect(), (0..32).map(four).collect()];
    for entries in &BOTH {
        let levels = level_table(&crossed(5, 32), &treatment_columns);
        let (mut plots, mut treatments) = (pattern(FAMILY), pattern(FAMILY));
        let answer = (entries.full_design)(&levels, 32, 5, 2, 6, &mut plots, &mut treatments);
        assert_eq!(answer, (14, [0, 0, 32, 5]), "{}", entries.title);
        assert_eq!(classes(&members(&treatments, 32, 5)), [1, 8, 16, 16, 32]);
        assert_eq!(treatments[5 * PLOTS..], pattern(FAMILY)[5 * PLOTS..]);
    }
}

#[test]
fn sizes_are_judged_by_15_and_places_by_6() {
    let single = family_buffer(&[vec![1]]);
    let levels = level_table(&[], &[]);
    for entries in &BOTH {
        for size in [0, 33, usize::MAX] {
            assert_eq!((entries.relation)(&single, 1, size), (15, [0; 97]));
            assert_eq!((entries.degrees)(&single, 1, size), (15, [0; 32]));
            assert_eq!((entries.strata)(&single, size, &single, 1, 1), (15, [0; 64]));
            assert_eq!((entries.strata)(&single, 1, &single, size, 1), (15, [0; 64]));
        }
        let mut name = pattern(NAME);
        let mut asked = |size, place| (entries.name)(b"t:Aa\n", &levels, &single, 1, size, 0, place, &mut name);
        let expected = [(0, 1, 6), (0, 0, 6), (1, 0, 6), (1, 2, 6), (33, 33, 15), (33, 34, 6), (usize::MAX, 5, 15)];
        for (size, place, number) in expected {
            assert_eq!(asked(size, place), (number, [0]), "size {size}, place {place}");
        }
        assert_eq!(asked(1, 1), (0, [1]));
        assert_eq!(name[0], b'U');
    }
}

#[test]
fn families_out_of_order_are_refused_by_15() {
    let good: [&[&[u8]]; 3] = [&[&[1, 1, 1]], &[&[1, 1, 2], &[1, 2, 2]], &[&[1, 1, 1], &[1, 2, 1], &[1, 2, 3]]];
    let bad: [&[&[u8]]; 6] = [
        &[&[2, 1, 1]],
        &[&[1, 3, 2]],
        &[&[1, 0, 1]],
        &[&[1, 2, 2], &[1, 1, 2]],
        &[&[1, 2, 1], &[1, 2, 1]],
        &[&[1, 2, 3], &[1, 1, 1]],
    ];
    let buffer = |members: &[&[u8]]| family_buffer(&members.iter().map(|m| m.to_vec()).collect::<Vec<_>>());
    for entries in &BOTH {
        for members in good {
            assert_eq!((entries.degrees)(&buffer(members), 3, members.len()).0, 0);
        }
        for members in bad {
            assert_eq!((entries.degrees)(&buffer(members), 3, members.len()).0, 15);
            assert_eq!((entries.relation)(&buffer(members), 3, members.len()).0, 15);
        }
    }
}

#[test]
fn two_incomparable_candidates_are_no_stratum() {
    let plot_members = [vec![1, 1, 2, 2], vec![1, 2, 1, 2]];
    let treatment_members = [vec![1, 1, 1, 1]];
    for entries in &BOTH {
        let (plots, treatments) = (family_buffer(&plot_members), family_buffer(&treatment_members));
        assert_eq!((entries.strata)(&plots, 2, &treatments, 1, 4), (16, [0; 64]));
        let (number, answer) = (entries.strata)(&plots, 1, &treatments, 1, 4);
        assert_eq!((number, answer[0], answer[32]), (0, 1, 1));
    }
}

#[test]
fn the_relation_of_four_plots() {
    let family = [vec![1, 1, 1, 1], vec![1, 1, 2, 2], vec![1, 2, 1, 2], vec![1, 2, 2, 1], vec![1, 2, 3, 4]];
    for entries in &BOTH {
        let (number, answer) = (entries.relation)(&family_buffer(&family), 4, 5);
        assert_eq!((number, answer[0]), (0, 5));
        assert_eq!(answer[1..7], [0, 1, 1, 1, 0b1111, 0], "{}", entries.title);
        assert_eq!(answer[33..39], [0, 1, 1, 1, 0b1110, 0]);
        assert_eq!(answer[65..71], [0, 1, 1, 1, 3, 0]);
    }
}

#[test]
fn degrees_of_freedom_can_be_negative_and_large() {
    let family = family_buffer(&layered_family());
    for entries in &BOTH {
        let (number, answer) = (entries.degrees)(&family, PLOTS, 31);
        assert_eq!(number, 0);
        for (layer, expected) in [3, -9, 51, -249, 1251].iter().enumerate() {
            assert_eq!(answer[6 * layer..6 * layer + 6], [*expected; 6], "{}", entries.title);
        }
        assert_eq!(answer[30..], [-6042, 0]);
    }
}

/// Five layers of six members, and E. In layer l the first 6 × l plots are apart, of the next six plots one is, and all
/// others are together, so that every member is finer than all of the layers before and than none of its own.
fn layered_family() -> Vec<Vec<u8>> {
    let mut found: Vec<Vec<u8>> = Vec::new();
    for layer in 0..5 {
        for single in 0..6 {
            let label = |u: usize| match u / 6 {
                segment if segment < layer => u,
                segment if segment == layer => 1000 + usize::from(u % 6 == single),
                _ => 2000,
            };
            found.push(numbered((0..PLOTS).map(label)));
        }
    }
    found.push(numbered(0..PLOTS));
    found.sort_by_key(|member| (member.iter().copied().max(), member.clone()));
    found
}

/// Numbered by first appearance.
fn numbered(labels: impl Iterator<Item = usize>) -> Vec<u8> {
    let mut seen: Vec<usize> = Vec::new();
    let number = |label| {
        let place = seen.iter().position(|&s| s == label).unwrap_or(seen.len());
        if place == seen.len() {
            seen.push(label);
        }
        place as u8 + 1
    };
    labels.map(number).collect()
}
